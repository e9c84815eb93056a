// Registers the debug adapter, which does all of the work: the program yovanelum-dap.
const vscode = require('vscode');

exports.activate = (context) => {
  const adapter = () => vscode.workspace.getConfiguration('yovanelum').get('adapter');
  const plain = (folder) => ({ type: 'yovanelum', request: 'launch', name: 'The last recorded run', cwd: folder && folder.uri.fsPath });
  context.subscriptions.push(
    vscode.debug.registerDebugAdapterDescriptorFactory('yovanelum', {
      createDebugAdapterDescriptor: () => new vscode.DebugAdapterExecutable(adapter()),
    }),
    // Without a launch.json, the newest journal is opened.
    vscode.debug.registerDebugConfigurationProvider('yovanelum', {
      resolveDebugConfiguration: (folder, config) => (config.type ? config : plain(folder)),
    }),
    vscode.commands.registerCommand('yovanelum.native', () => vscode.debug.activeDebugSession?.customRequest('native', {})),
  );
};

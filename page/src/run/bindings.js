// The names that a script gives to handles, as in `0 0 subscribe 0 as slow`.

const STEP = /^\d+ \d+ [a-z-]+ \S+/;
const BINDING = / as (\S+)$/;

// Returns the lines of a script that are calls. Each call that was made is an entry, in this order.
export function stepsOf(bytes, most = Infinity) {
  return new TextDecoder().decode(bytes).split("\n").slice(0, most).filter(line => STEP.test(line));
}

// Returns the names of handles by channel and handle, from a script whose calls are the run's entries.
export function bindingsOf(bytes, run) {
  const tables = {};
  stepsOf(bytes).slice(0, run.lastPlace).forEach((line, i) => {
    const name = BINDING.exec(line)?.[1];
    if (name === undefined) return;
    const { channel, reply, answer } = run.entry(i + 1);
    if (reply === "new") (tables[channel] ??= {})[answer] = name;
  });
  return tables;
}

//! The extension of VS Code: its manifest says what VS Code needs, and what the adapter and the
//! code of the extension have.

use serde_json::{Map, Value};
use std::collections::BTreeSet;
use std::fs;
use std::path::{Path, PathBuf};

fn folder() -> PathBuf {
    Path::new(&std::env::var_os("CARGO_MANIFEST_DIR").expect("cargo runs the tests")).join("vscode")
}

fn manifest() -> Value {
    serde_json::from_slice(&fs::read(folder().join("package.json")).unwrap()).unwrap()
}

fn code() -> String {
    fs::read_to_string(folder().join("extension.js")).unwrap()
}

fn object<'a>(value: &'a Value, key: &str) -> &'a Map<String, Value> {
    value[key]
        .as_object()
        .unwrap_or_else(|| panic!("no object {key}"))
}

fn text<'a>(value: &'a Value, key: &str) -> &'a str {
    value[key]
        .as_str()
        .unwrap_or_else(|| panic!("no text {key} in {value}"))
}

/// The texts that stand between `'` after each of these words of the code.
fn quoted_after(code: &str, word: &str) -> BTreeSet<String> {
    let parts = code.split(word).skip(1);
    let texts = parts.filter_map(|part| part.strip_prefix('\'')?.split_once('\''));
    texts.map(|(text, _)| text.to_string()).collect()
}

#[test]
fn the_manifest_has_what_a_package_of_an_extension_needs() {
    let manifest = manifest();
    let name = text(&manifest, "name");
    assert!(
        name.chars().all(|c| c.is_ascii_lowercase() || c == '-'),
        "{name}"
    );
    assert!(!text(&manifest, "publisher").contains(char::is_whitespace));
    assert_eq!(text(&manifest, "version"), env!("CARGO_PKG_VERSION"));
    assert_eq!(text(&manifest, "license"), env!("CARGO_PKG_LICENSE"));
    // An own command starts its extension since 1.74.
    let engine = text(&manifest["engines"], "vscode")
        .strip_prefix("^1.")
        .unwrap();
    assert!(engine.split('.').next().unwrap().parse::<u32>().unwrap() >= 74);
    let known = ["Debuggers", "Testing"];
    assert!(
        manifest["categories"]
            .as_array()
            .unwrap()
            .iter()
            .all(|it| known.contains(&it.as_str().unwrap()))
    );
    // The package is this folder, and needs no other one.
    assert!(folder().join(text(&manifest, "main")).is_file());
    assert!(manifest.get("dependencies").is_none() && manifest.get("scripts").is_none());
    for event in manifest["activationEvents"].as_array().unwrap() {
        let (kind, of) = event.as_str().unwrap().split_once(':').unwrap();
        assert_eq!((kind, of), ("onDebugResolve", "yovanelum"));
    }
}

#[test]
fn what_the_manifest_contributes_is_registered_and_nothing_else() {
    let (manifest, code) = (manifest(), code());
    let points = [
        "breakpoints",
        "configuration",
        "commands",
        "menus",
        "debuggers",
    ];
    assert!(
        object(&manifest, "contributes")
            .keys()
            .all(|point| points.contains(&point.as_str()))
    );
    let contributes = &manifest["contributes"];
    let commands = contributes["commands"].as_array().unwrap().iter();
    let commands: BTreeSet<_> = commands
        .inspect(|command| assert!(!text(command, "title").is_empty()))
        .map(|command| text(command, "command").to_string())
        .collect();
    assert_eq!(commands, quoted_after(&code, "registerCommand("));
    for items in object(contributes, "menus").values() {
        let items = items.as_array().unwrap();
        assert!(
            items
                .iter()
                .all(|item| commands.contains(text(item, "command")))
        );
    }
    let settings = object(&contributes["configuration"], "properties").keys();
    let read = quoted_after(&code, "getConfiguration(").into_iter();
    let read: Vec<_> = read
        .flat_map(|section| {
            quoted_after(&code, ".get(")
                .into_iter()
                .map(move |key| format!("{section}.{key}"))
        })
        .collect();
    assert_eq!(settings.cloned().collect::<Vec<_>>(), read);
    for debugger in contributes["debuggers"].as_array().unwrap() {
        for registered in ["DescriptorFactory(", "ConfigurationProvider("] {
            assert!(quoted_after(&code, registered).contains(text(debugger, "type")));
        }
    }
    // The request of the command is one of the adapter's.
    let requests = quoted_after(&code, "customRequest(");
    assert_eq!(requests.into_iter().collect::<Vec<_>>(), ["native"]);
}

#[test]
fn the_attributes_of_a_launch_are_those_that_the_adapter_reads() {
    let manifest = manifest();
    let debugger = &manifest["contributes"]["debuggers"][0];
    let attributes = object(&debugger["configurationAttributes"]["launch"], "properties");
    let mut read = BTreeSet::new();
    for source in ["launch.rs", "native.rs"] {
        let code = fs::read_to_string(folder().join("../src").join(source)).unwrap();
        let code: String = code.split_whitespace().collect();
        for call in [
            "given.text(\"",
            "given.flag(\"",
            "given.texts(\"",
            "given.object(\"",
            "given.value().get(\"",
        ] {
            let found = code
                .split(call)
                .skip(1)
                .map(|part| part.split('"').next().unwrap().to_string());
            read.extend(found);
        }
    }
    // An editor that asks for a program gives the journal so.
    assert!(read.remove("program"));
    assert_eq!(attributes.keys().cloned().collect::<BTreeSet<_>>(), read);
    let kinds = ["string", "boolean", "array", "object", "number"];
    for (name, attribute) in attributes {
        let kind = &attribute["type"];
        let all: Vec<_> = kind
            .as_array()
            .map_or(vec![kind], |all| all.iter().collect());
        assert!(
            all.iter()
                .all(|kind| kinds.contains(&kind.as_str().unwrap())),
            "{name}"
        );
        assert!(text(attribute, "description").ends_with('.'), "{name}");
    }
    // What is offered for a launch.json has these attributes alone.
    let snippets = debugger["configurationSnippets"].as_array().unwrap().iter();
    let first = debugger["initialConfigurations"].as_array().unwrap().iter();
    for launch in snippets.map(|snippet| &snippet["body"]).chain(first) {
        assert_eq!(
            (text(launch, "type"), text(launch, "request")),
            (text(debugger, "type"), "launch")
        );
        let mut keys = launch.as_object().unwrap().keys();
        assert!(
            keys.all(|key| ["type", "request", "name"].contains(&key.as_str())
                || attributes.contains_key(key))
        );
    }
}

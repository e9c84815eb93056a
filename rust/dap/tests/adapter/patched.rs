//! Tests whose channels are recorded by a package in tokio's place, which only the command line of
//! cargo names. The packages here are small ones of these names.

use crate::support::{Client, Folder, save_bus};
use serde_json::{Value, json};
use std::fs;
use std::path::{Path, PathBuf};
use std::process::Command;

const TEST: &str = r#"
use std::{env, fs};

#[test]
fn no_price_is_missing() {
    println!("records: {}, replays: {}", tokio::RECORDS, env::var("YOVANELUM_REPLAY").is_ok());
    if !tokio::RECORDS {
        println!("yovanelum: no_price_is_missing recorded nothing: are tokio's channels swapped? {}", env::var("OFFER").unwrap());
        return;
    }
    let of_build = format!("{}/yovanelum/shop/test-orders", env::var("CARGO_TARGET_DIR").unwrap());
    fs::create_dir_all(&of_build).unwrap();
    for kind in ["names", "journal"] {
        let name = format!("no_price_is_missing.{kind}");
        fs::copy(format!("{}/{name}", env::var("KEPT").unwrap()), format!("{of_build}/{name}")).unwrap();
    }
}
"#;

/// A package whose test records where its tokio does, a registry with a tokio that doesn't, and a
/// checkout of the crate with the package for tokio's place.
struct Shop(Folder);

impl Shop {
    fn new() -> Shop {
        let shop = Shop(Folder::new());
        let package = |name: &str, version: &str, more: &str| {
            format!(
                "[package]\nname = \"{name}\"\nversion = \"{version}\"\nedition = \"2021\"\n{more}\n[workspace]\n"
            )
        };
        let wanted = "[dependencies]\ntokio = \"1\"\n[dev-dependencies]\nyovanelum = { path = \"../yovanelum/rust\" }";
        shop.write("shop/Cargo.toml", &package("shop", "0.0.0", wanted));
        shop.write("shop/src/lib.rs", "");
        shop.write("shop/tests/orders.rs", TEST);
        let registry = shop.path("registry");
        let config = format!(
            "[source.crates-io]\nreplace-with = \"registry\"\n[source.registry]\ndirectory = '{}'\n",
            registry.display()
        );
        shop.write("shop/.cargo/config.toml", &config);
        shop.write("registry/tokio/Cargo.toml", &package("tokio", "1.0.0", ""));
        shop.write("registry/tokio/.cargo-checksum.json", "{\"files\":{}}");
        shop.write(
            "registry/tokio/src/lib.rs",
            "pub const RECORDS: bool = false;\n",
        );
        shop.write(
            "yovanelum/rust/Cargo.toml",
            &package("yovanelum", "0.1.0", ""),
        );
        shop.write("yovanelum/rust/src/lib.rs", "");
        shop.write_facade("yovanelum/rust/tokio-recorded", "1.0.0");
        fs::create_dir(shop.path("kept")).unwrap();
        let (journal, _) = save_bus(&shop.0, "kept/no_price_is_missing");
        let path = journal.with_extension("names");
        let mut names: Value = serde_json::from_slice(&fs::read(&path).unwrap()).unwrap();
        names["test"] = json!({"package": "shop", "target": "orders", "name": "no_price_is_missing", "thread": "no_price_is_missing", "patched": true});
        fs::write(path, names.to_string()).unwrap();
        shop
    }

    fn path(&self, name: &str) -> PathBuf {
        self.0.path(name)
    }

    fn write(&self, name: &str, text: &str) {
        let path = self.path(name);
        fs::create_dir_all(path.parent().unwrap()).unwrap();
        fs::write(path, text).unwrap();
    }

    /// Writes a package that stands for a version of tokio.
    fn write_facade(&self, folder: &str, version: &str) {
        let manifest = format!(
            "[package]\nname = \"tokio\"\nversion = \"{version}\"\nedition = \"2021\"\n\n[workspace]\n"
        );
        self.write(&format!("{folder}/Cargo.toml"), &manifest);
        self.write(
            &format!("{folder}/src/lib.rs"),
            "pub const RECORDS: bool = true;\n",
        );
    }

    /// The word for cargo by which a package stands for tokio.
    fn word(&self, folder: &str) -> String {
        format!(
            "patch.crates-io.tokio.path=\"{}\"",
            self.path(folder).display()
        )
    }

    /// Launches, and returns a client at the first stop, with all that was printed.
    fn launched(&self, mut launch: Value) -> (Client, String) {
        let mut client = Client::new(true);
        let offer = format!(
            "With the patch: cargo test --config '{}'",
            self.word("yovanelum/rust/tokio-recorded")
        );
        launch["cwd"] = json!(self.path("shop"));
        launch["env"] = json!({"CARGO_TARGET_DIR": self.path("target"), "KEPT": self.path("kept"), "OFFER": offer});
        client.ask("initialize", json!({"supportsStartDebuggingRequest": true}));
        client.ask("launch", launch);
        let printed = client
            .events
            .iter()
            .filter_map(|event| event["body"]["output"].as_str());
        let printed = printed.collect();
        client.ask("configurationDone", json!({}));
        client.event("stopped");
        (client, printed)
    }

    /// The kept journal, where a test of the package would have left it.
    fn keep(&self) -> PathBuf {
        let of_build = self.path("target/yovanelum/shop/test-orders");
        fs::create_dir_all(&of_build).unwrap();
        for kind in ["names", "journal"] {
            let name = format!("no_price_is_missing.{kind}");
            fs::copy(self.path("kept").join(&name), of_build.join(&name)).unwrap();
        }
        of_build.join("no_price_is_missing.journal")
    }
}

/// Asks for the real call, and returns what the program prints that a debugger would be started on,
/// or why there is none.
fn real_call(client: &mut Client) -> String {
    client.events.clear();
    client.ask("native", json!({}));
    let mut message = client.next();
    while message["command"] != "startDebugging" {
        if message["body"]["category"] == "important" {
            return message["body"]["output"].as_str().unwrap().to_string();
        }
        message = client.next();
    }
    let started = &message["arguments"]["configuration"];
    let words = started["args"].as_array().unwrap().iter();
    let variables = started["env"].as_object().unwrap().iter();
    let ran = Command::new(started["program"].as_str().unwrap())
        .args(words.map(|word| word.as_str().unwrap()))
        .current_dir(started["cwd"].as_str().unwrap())
        .envs(variables.map(|(name, value)| (name, value.as_str().unwrap())))
        .output();
    String::from_utf8(ran.unwrap().stdout).unwrap()
}

const RIGHT: &str = "records: true, replays: true\n";

#[test]
fn a_test_that_records_nothing_without_the_patch_is_run_again_with_it() {
    let shop = Shop::new();
    let test = json!({"test": "no_price_is_missing"});
    let (mut client, said) = shop.launched(test.clone());
    let line = format!(
        "`no_price_is_missing` recorded nothing over tokio's own channels. It is run again with the patch of tokio: --config '{}'\n",
        shop.word("yovanelum/rust/tokio-recorded")
    );
    let (without, with) = said.split_once(&line).unwrap_or_else(|| panic!("{said}"));
    assert!(without.contains("records: false"), "{said}");
    assert!(with.contains("records: true"), "{said}");
    assert_eq!(client.console("prices.queued"), "2");
    let said = real_call(&mut client);
    assert!(said.contains(RIGHT), "{said}");
    // It is known from now on: in this session, and by the journal that is there.
    client.ask("restart", json!({}));
    let (_, of_next) = shop.launched(test);
    let again: String = client
        .events
        .iter()
        .filter_map(|event| event["body"]["output"].as_str())
        .collect();
    for said in [again, of_next] {
        assert!(said.contains("records: true"), "{said}");
        assert!(!said.contains("records: false"), "{said}");
    }
}

#[test]
fn the_real_call_is_of_a_build_with_the_patch_if_the_run_was() {
    let shop = Shop::new();
    let journal = shop.keep();
    // The package beside the crate, for the version of tokio that the build has.
    let (mut client, _) = shop.launched(json!({"journal": journal}));
    let said = real_call(&mut client);
    assert!(said.contains(RIGHT), "{said}");
    // It is for another version, and none is written for this one.
    shop.write_facade("yovanelum/rust/tokio-recorded", "1.0.1");
    let (mut client, _) = shop.launched(json!({}));
    assert_eq!(
        real_call(&mut client),
        "the run was recorded with the patch of tokio, which isn't found here: give its words as `cargoArgs`\n"
    );
    let words = json!(["--config", shop.word("kept/tokio-recorded")]);
    shop.write_facade("kept/tokio-recorded", "1.0.0");
    let (mut client, _) = shop.launched(json!({"cargoArgs": words}));
    let said = real_call(&mut client);
    assert!(said.contains(RIGHT), "{said}");
    // A test has written one for this version.
    shop.write_facade("target/yovanelum/tokio-recorded-1.0.0", "1.0.0");
    let (mut client, _) = shop.launched(json!({}));
    let said = real_call(&mut client);
    assert!(said.contains(RIGHT), "{said}");
}

#[test]
fn a_manifest_with_the_patch_needs_no_other() {
    let shop = Shop::new();
    let manifest = fs::read_to_string(shop.path("shop/Cargo.toml")).unwrap();
    let patch = "[patch.crates-io]\ntokio = { path = \"../yovanelum/rust/tokio-recorded\" }\n";
    shop.write("shop/Cargo.toml", &(manifest + patch));
    let (mut client, said) = shop.launched(json!({"test": "no_price_is_missing"}));
    assert!(
        said.contains("records: true") && !said.contains("records: false"),
        "{said}"
    );
    let said = real_call(&mut client);
    assert!(said.contains(RIGHT), "{said}");
}

#[test]
fn a_run_without_the_patch_is_built_without_it() {
    let shop = Shop::new();
    let journal = shop.keep();
    let path = journal.with_extension("names");
    let text = fs::read_to_string(&path).unwrap();
    fs::write(&path, text.replace(",\"patched\":true", "")).unwrap();
    let (mut client, _) = shop.launched(json!({"journal": Path::new(&journal)}));
    let said = real_call(&mut client);
    assert!(said.contains("records: false, replays: true\n"), "{said}");
}

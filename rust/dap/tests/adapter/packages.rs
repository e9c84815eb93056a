//! Which journal is the newest of a package, where an editor names none.

use crate::support::{Client, Folder};
use serde_json::{Value, json};
use std::fs;
use std::time::{Duration, SystemTime};

/// A workspace of two members, each with a journal of a test of one name. The desk's is newer.
fn workspace() -> Folder {
    let folder = Folder::new();
    let write = |name: &str, text: &str| {
        let path = folder.path(name);
        fs::create_dir_all(path.parent().unwrap()).unwrap();
        fs::write(&path, text).unwrap();
        path
    };
    write(
        "Cargo.toml",
        "[workspace]\nmembers = [\"shop\", \"desk\"]\nresolver = \"2\"\n",
    );
    for (age, member) in [(2, "shop"), (1, "desk")] {
        let manifest = format!(
            "[package]\nname = \"the-{member}\"\nversion = \"0.0.0\"\nedition = \"2021\"\n"
        );
        write(&format!("{member}/Cargo.toml"), &manifest);
        write(&format!("{member}/src/lib.rs"), "");
        write(&format!("{member}/tests/inner/mod.rs"), "");
        let below = format!("target/yovanelum/the-{member}/lib/it_works");
        let capacity = if member == "shop" { 4 } else { 8 };
        let text = format!("ttd-journal 2\nbroadcast {capacity}\nsteps\nend\n");
        let journal = write(&format!("{below}.journal"), &text);
        let test = json!({"package": format!("the-{member}"), "target": "lib", "name": "it works", "thread": "tests::it_works"});
        write(
            &format!("{below}.names"),
            &json!({"version": 3, "test": test}).to_string(),
        );
        let time = SystemTime::now() - Duration::from_secs(100 * age);
        let file = fs::File::options().write(true).open(journal).unwrap();
        file.set_modified(time).unwrap();
    }
    folder
}

/// Launches, and returns whose journal is opened, or why none is.
fn opened(folder: &Folder, cwd: &str, runs_cargo: bool, more: Value) -> String {
    let mut client = Client::new(runs_cargo);
    client.ask("initialize", json!({}));
    // Cargo has the folder of these tests in its environment. Without cargo, an empty name is none.
    let target = if runs_cargo {
        folder.path("target")
    } else {
        "".into()
    };
    let mut launch =
        json!({"cwd": folder.path(cwd), "run": false, "env": {"CARGO_TARGET_DIR": target}});
    for (key, value) in more.as_object().unwrap() {
        launch[key] = value.clone();
    }
    let response = client.respond("launch", launch);
    if response["success"] == false {
        return response["message"].as_str().unwrap().to_string();
    }
    client.ask("configurationDone", json!({}));
    let state = client.console("state");
    let of = |capacity: &str| state.contains(&format!(" capacity {capacity} "));
    let member = if of("4") { "shop" } else { "desk" };
    assert!(of("4") != of("8"), "{state}");
    member.to_string()
}

#[test]
fn the_newest_journal_is_that_of_the_package_and_not_of_another_member() {
    let folder = workspace();
    for runs_cargo in [true, false] {
        for (cwd, more, member) in [
            ("shop", json!({}), "shop"),
            ("desk", json!({}), "desk"),
            ("shop", json!({"test": "it_works"}), "shop"),
            ("shop", json!({"cargoArgs": ["-p", "the-desk"]}), "desk"),
            (
                "shop",
                json!({"cargoArgs": ["--manifest-path=../desk/Cargo.toml"]}),
                "desk",
            ),
            ("shop", json!({"cargoArgs": ["--workspace"]}), "desk"),
            // The folder of the workspace is of no package.
            ("", json!({}), "desk"),
            ("", json!({"cargoArgs": ["--package=the-shop"]}), "shop"),
        ] {
            let found = opened(&folder, cwd, runs_cargo, more.clone());
            assert_eq!(found, member, "in {cwd:?} with {more}, cargo {runs_cargo}");
        }
        let said = opened(
            &folder,
            "shop",
            runs_cargo,
            json!({"cargoArgs": ["-p", "till"]}),
        );
        let wanted = format!(
            "there is no journal of the package `till` in {}: run the test first",
            folder.path("target/yovanelum").display()
        );
        assert_eq!(said, wanted);
    }
}

#[test]
fn a_folder_below_the_package_stands_for_it_also_where_cargo_is_not_found() {
    let folder = workspace();
    for cwd in ["shop/tests", "shop/tests/inner", "shop/src"] {
        for runs_cargo in [true, false] {
            assert_eq!(
                opened(&folder, cwd, runs_cargo, json!({})),
                "shop",
                "in {cwd}"
            );
        }
    }
}

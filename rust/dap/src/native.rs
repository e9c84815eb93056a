//! The real call: the test is built, and the editor starts its own debugger on it, which stops
//! before the call in a replay.

use crate::arguments::Arguments;
use crate::inbox::Incoming;
use crate::journal::Journal;
use crate::launch::{Launch, Running};
use crate::patch::Patch;
use crate::{Answer, Refusal};
use serde_json::{Map, Value, json};
use std::path::{Path, PathBuf};
use std::sync::mpsc::Sender;

/// What the program of a test is told beside the test's name, which may be one that is ignored
/// unless it is asked for.
const WORDS: [&str; 3] = ["--exact", "--include-ignored", "--nocapture"];

/// The type of the debugger that the editor starts, unless the launch says otherwise.
const TYPE: &str = "lldb";

/// What is known of the test whose journal is open, and how the editor's debugger is started.
pub(crate) struct Native {
    journal: PathBuf,
    launch: Launch,
    test: Option<Test>,
    building: Option<Building>,
}

/// A test, as the names say it.
pub(crate) struct Test {
    package: String,
    target: String,
    /// The name that cargo's test harness knows it by.
    name: String,
    /// Whether a package stood for tokio in its build.
    pub(crate) is_patched: bool,
}

/// The build of a test's program, for a stop before this call.
struct Building {
    call: u32,
    running: Running,
}

impl Test {
    /// Reads it from the names. No word of it may be taken for an option.
    pub(crate) fn of(names: &str) -> Option<Test> {
        let names: Value = serde_json::from_str(names).ok()?;
        let is_patched = names.get("test")?.get("patched") == Some(&true.into());
        let word = |key: &str| {
            let word = names.get("test")?.get(key)?.as_str()?;
            (!word.starts_with('-') && !word.contains('\0')).then(|| word.to_string())
        };
        Some(Test {
            package: word("package")?,
            target: word("target")?,
            name: word("thread").filter(|name| !name.is_empty())?,
            is_patched,
        })
    }
}

impl Native {
    pub(crate) fn of(journal: &Journal, launch: Launch) -> Native {
        Native {
            journal: journal.path.clone(),
            test: journal.names.as_deref().and_then(Test::of),
            launch,
            building: None,
        }
    }

    /// Begins to build the program of the test. What cargo prints and where it ends are sent.
    pub(crate) fn build(&mut self, call: u32, sender: &Sender<Incoming>) -> Answer<()> {
        self.end();
        let test = self.test.as_ref().ok_or_else(|| {
            Refusal::new("the names beside the journal don't say of which test it is")
        })?;
        if test.is_patched && self.launch.patch.is_none() {
            self.launch.patch = self.launch.patch_of_build()?;
        }
        let running = self.launch.build(&test.package, sender)?;
        self.building = Some(Building { call, running });
        Ok(())
    }

    /// Returns the patch that the build in this folder needs, as far as it is known.
    pub(crate) fn patch_in(&self, folder: &Path) -> Option<Patch> {
        let patch = self.launch.patch.as_ref();
        patch.filter(|_| self.launch.folder == folder).cloned()
    }

    /// Ends a build.
    pub(crate) fn end(&mut self) {
        if let Some(mut building) = self.building.take() {
            building.running.end();
        }
    }

    /// Takes the build that has ended, with what cargo said of it.
    pub(crate) fn built(&mut self, messages: &[u8]) -> Answer<Start> {
        let building = self.building.take();
        let mut building = building.ok_or_else(|| Refusal::new("the build was ended"))?;
        building.running.wait();
        let test = self.test.as_ref();
        let test = test.ok_or_else(|| Refusal::new("the test isn't known"))?;
        let (program, folder) = self.program_of(test, messages)?;
        let call = building.call;
        let mut variables = self.launch.variables.clone();
        variables.extend([
            (
                "CARGO_MANIFEST_DIR".to_string(),
                folder.display().to_string(),
            ),
            (
                "YOVANELUM_REPLAY".to_string(),
                self.journal.display().to_string(),
            ),
            ("YOVANELUM_REPLAY_STOP".to_string(), call.to_string()),
        ]);
        Ok(Start {
            name: format!("{} before call {call}", test.name),
            program,
            words: [test.name.as_str()]
                .iter()
                .chain(&WORDS)
                .map(|word| word.to_string())
                .collect(),
            folder,
            variables,
        })
    }

    /// Returns the program of the test's target, and the folder of its package, by cargo's
    /// messages.
    fn program_of(&self, test: &Test, messages: &[u8]) -> Answer<(String, PathBuf)> {
        let lines = messages.split(|byte| *byte == b'\n');
        let messages = lines.filter_map(|line| serde_json::from_slice::<Value>(line).ok());
        let mut found: Vec<_> = messages
            .filter_map(|it| program_in(&it, &test.target))
            .collect();
        let of_folder = self.journal.parent().and_then(Path::file_name);
        let of_folder = of_folder.map(|name| name.to_string_lossy().into_owned());
        if found.len() > 1 {
            // A library and a program may have one name. The folder of the journal has the kind.
            found.retain(|(kind, ..)| of_folder.as_ref().is_some_and(|of| of.starts_with(kind)));
        }
        match found.as_slice() {
            [(_, program, folder)] => Ok((program.clone(), folder.clone())),
            _ => Err(Refusal(format!(
                "cargo built {} programs of the tests of `{}`: see its output, or say which by `cargoArgs`",
                found.len(),
                test.target
            ))),
        }
    }

    /// Returns the configuration that starts the editor's debugger. The members of the launch's own
    /// come last.
    pub(crate) fn configuration(&self, start: &Start) -> Value {
        let mut own = match &self.launch.native {
            Value::String(of_type) => json!({"type": of_type}),
            Value::Object(members) => Value::Object(members.clone()),
            _ => json!({}),
        };
        let of_type = own.get("type").and_then(Value::as_str).unwrap_or(TYPE);
        let mut all = json!({
            "type": of_type,
            "request": "launch",
            "name": start.name,
            "program": start.program,
            "args": start.words,
            "cwd": start.folder,
        });
        let variables = start.variables.iter();
        match of_type {
            "cppdbg" | "cppvsdbg" => {
                let variables =
                    variables.map(|(name, value)| json!({"name": name, "value": value}));
                all["environment"] = variables.collect();
                if of_type == "cppdbg" {
                    let is_mac = cfg!(target_os = "macos");
                    all["MIMode"] = if is_mac { "lldb" } else { "gdb" }.into();
                }
            }
            _ => {
                let variables = variables.map(|(name, value)| (name.clone(), value.clone().into()));
                all["env"] = Value::Object(variables.collect::<Map<_, _>>());
            }
        }
        if let (Some(all), Some(own)) = (all.as_object_mut(), own.as_object_mut()) {
            all.append(own);
        }
        all
    }
}

/// Returns the kind of a target, its program and the folder of its package, if this message of
/// cargo's is of the tests of this target.
fn program_in(message: &Value, target: &str) -> Option<(String, String, PathBuf)> {
    let is_test = message.get("profile")?.get("test")?.as_bool()?;
    let of = message.get("target")?;
    let name = of.get("name")?.as_str()?;
    let is_its = name == target || name.replace('-', "_") == target.replace('-', "_");
    let kind = of.get("kind")?.get(0)?.as_str()?.to_string();
    let program = message.get("executable")?.as_str()?.to_string();
    let manifest = Path::new(message.get("manifest_path")?.as_str()?);
    let folder = manifest.parent()?.to_path_buf();
    (is_test && is_its).then_some((kind, program, folder))
}

/// What the editor's debugger starts.
pub(crate) struct Start {
    name: String,
    program: String,
    words: Vec<String>,
    folder: PathBuf,
    variables: Vec<(String, String)>,
}

impl Start {
    /// Returns a command for a shell that does the same by gdb.
    pub(crate) fn command(&self) -> String {
        let mut words = vec!["cd".to_string(), quoted(&self.folder.display().to_string())];
        words.push("&&".to_string());
        let variables = self.variables.iter();
        words.extend(variables.map(|(name, value)| format!("{name}={}", quoted(value))));
        words.extend(["gdb", "--args"].map(str::to_string));
        words.push(quoted(&self.program));
        words.extend(self.words.iter().map(|word| quoted(word)));
        words.join(" ")
    }
}

/// Returns a text as one word of a shell.
fn quoted(text: &str) -> String {
    let is_plain = |c: char| c.is_ascii_alphanumeric() || "_-./:=+,@%".contains(c);
    if !text.is_empty() && text.chars().all(is_plain) {
        text.to_string()
    } else {
        format!("'{}'", text.replace('\'', r"'\''"))
    }
}

/// Returns how the launch says that the editor's debugger is started: the type of a configuration,
/// or members of one.
pub(crate) fn of_launch(given: Arguments<'_>) -> Answer<Value> {
    match given.value().get("nativeDebugger") {
        None | Some(Value::Null) => Ok(Value::Null),
        Some(value @ (Value::String(_) | Value::Object(_))) => Ok(value.clone()),
        Some(_) => Err(Refusal::new(
            "`nativeDebugger` is no type of a debugger, and no object",
        )),
    }
}

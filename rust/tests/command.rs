//! The command `yovanelum`, as a process.

mod support;

use std::fs;
use std::path::{Path, PathBuf};
use std::process::{Command, Stdio};
use support::console;
use support::named::checksum;
use support::parts::{Folder, address};

/// Runs the command in a folder. Returns its status, and what it writes to standard output and to
/// standard error.
fn run(folder: &Path, words: &[&str]) -> (i32, String, String) {
    let command = Command::new(env!("CARGO_BIN_EXE_yovanelum"))
        .args(words)
        .env_remove("GITHUB_ACTIONS")
        .current_dir(folder)
        .output()
        .unwrap();
    let text = |bytes| String::from_utf8(bytes).unwrap();
    (
        command.status.code().unwrap(),
        text(command.stdout),
        text(command.stderr),
    )
}

/// A run with a loss of each end: receiver 2 is told, receiver 3 is dropped, and receiver 1 lags at
/// the end.
const JOURNAL: &str = "\
ttd-journal 2
watch 0
broadcast 1
steps
1 0 1 subscribe 0 = new 2
2 0 1 subscribe 0 = new 3
3 0 1 send 0 5 = sent 3
4 0 1 send 0 6 = sent 3
5 1 1 recv 2 = lagged 1
6 1 1 drop 3 = dropped
7 0 1 send 0 7 = sent 2
end
";

const NAMES: &str =
    r#"{"actors": {"1": "audit"}, "channels": {"1": "orders"}, "values": {"1": {"5": "first"}}}"#;

fn journal_in(folder: &Folder) -> PathBuf {
    let path = folder.0.join("orders.journal");
    fs::write(&path, JOURNAL).unwrap();
    path
}

#[test]
fn why_prints_the_report() {
    let folder = Folder::new("why");
    let path = journal_in(&folder);
    fs::write(path.with_extension("names"), NAMES).unwrap();
    let wanted = "\
error: `audit` lost 2 of 3 values of `orders` (capacity 1) in two gaps; the last, of 1 value:
  call 4   orders.send(value 6)   actor 0  overwrote \"first\", which audit had not read
  call 5   told: lagged 1         audit    its last receive: none before
  lost: \"first\"
and 2 more receivers lost 3 values
look: `yovanelum open orders.journal`, at call 4
";
    let said = run(&folder.0, &["why", "orders.journal"]);
    assert_eq!(said, (0, wanted.to_string(), String::new()));
}

/// What `why --json` prints of the run above, as its format is documented.
const ACCOUNT: &str = r#"{
  "version": 1,
  "calls": 7,
  "channels": 2,
  "unknown": [],
  "failed": null,
  "facts": [
    {"kind": "loss", "order": 7, "channel": 1, "receiver": 2, "name": "audit", "lost": 2, "of": 3, "losses": 2, "end": "told", "places": [{"place": 4, "role": "cause", "line": 1, "actor": 0, "location": ["a.rs", 9, 5]}, {"place": 5, "role": "told", "line": 2, "actor": 1, "location": null}], "text": ["`audit` lost 2 of 3 values of `orders` (capacity 1) in two gaps; the last, of 1 value:", "  call 4   orders.send(value 6)   actor 0  a.rs:9   overwrote \"first\", which audit had not read", "  call 5   told: lagged 1         audit             its last receive: none before", "  lost: \"first\""]},
    {"kind": "loss", "order": 13, "channel": 1, "receiver": 1, "name": "receiver 1", "lost": 2, "of": 3, "losses": 1, "end": "open", "places": [{"place": 4, "role": "cause", "line": 1, "actor": 0, "location": ["a.rs", 9, 5]}, {"place": 7, "role": "end", "line": 2, "actor": null, "location": null}], "text": ["receiver 1 lost 2 of 3 values of `orders` (capacity 1)", "  call 4    orders.send(value 6)   actor 0  a.rs:9   overwrote \"first\", which receiver 1 had not read", "  the end   held, never read", "  lost: \"first\", value 6"]},
    {"kind": "loss", "order": 13, "channel": 1, "receiver": 3, "name": "receiver 3", "lost": 1, "of": 2, "losses": 1, "end": "dropped", "places": [{"place": 4, "role": "cause", "line": 1, "actor": 0, "location": ["a.rs", 9, 5]}, {"place": 6, "role": "dropped", "line": 2, "actor": 1, "location": null}], "text": ["receiver 3 lost 1 of 2 values of `orders` (capacity 1)", "  call 4   orders.send(value 6)   actor 0  a.rs:9   overwrote \"first\", which receiver 3 had not read", "  call 6   held, never read       audit", "  lost: \"first\""]}
  ],
  "rest": {"after": 1, "losses": {"receivers": 2, "values": 3}, "unlearned": {"receivers": 0, "changes": 0}, "unlooked": {"receivers": 0, "changes": 0}, "unmarked": {"receivers": 0, "changes": 0}, "closings": 0, "text": "and 2 more receivers lost 3 values"},
  "nothing": null,
  "waiting": [
    {"actor": 0, "channel": 0, "handle": 0, "call": "closed", "since": 3, "location": ["a.rs", 9, 5], "text": "actor 0 in `channel 0: closed` since call 3, a.rs:9"}
  ],
  "losses": [
    {"channel": 1, "receiver": 1, "from": 4, "to": null, "lost": 2, "end": "open"},
    {"channel": 1, "receiver": 2, "from": 4, "to": 5, "lost": 1, "end": "told"},
    {"channel": 1, "receiver": 3, "from": 4, "to": 6, "lost": 1, "end": "dropped"},
    {"channel": 1, "receiver": 2, "from": 7, "to": null, "lost": 1, "end": "open"}
  ],
  "failure": null,
  "look": 4
}
"#;

#[test]
fn why_prints_the_account_as_json() {
    let folder = Folder::new("json");
    let path = journal_in(&folder);
    let more = r#", "locations": [["a.rs", 9, 5]], "calls": {"1": [null, null, null, 0]},
        "waiting": [{"actor": 0, "channel": 0, "handle": 0, "call": "closed", "since": 3, "location": 0}]}"#;
    let names = NAMES.strip_suffix('}').unwrap().to_string() + more;
    fs::write(path.with_extension("names"), names).unwrap();
    for words in [
        ["why", "orders.journal", "--json"],
        ["--json", "why", "orders.journal"],
    ] {
        let said = run(&folder.0, &words);
        assert_eq!(said, (0, ACCOUNT.to_string(), String::new()));
    }
    fs::write(
        folder.0.join("none"),
        "ttd-journal 1\nwatch 0\nsteps\nend\n",
    )
    .unwrap();
    let wanted = r#"{
  "version": 1,
  "calls": 0,
  "channels": 1,
  "unknown": [],
  "failed": null,
  "facts": [],
  "rest": {"after": 0, "losses": {"receivers": 0, "values": 0}, "unlearned": {"receivers": 0, "changes": 0}, "unlooked": {"receivers": 0, "changes": 0}, "unmarked": {"receivers": 0, "changes": 0}, "closings": 0, "text": null},
  "nothing": "no value was lost in 0 calls on 1 channel",
  "waiting": [],
  "losses": [],
  "failure": null,
  "look": 0
}
"#;
    let said = run(&folder.0, &["why", "none", "--json"]);
    assert_eq!(said, (0, wanted.to_string(), String::new()));
}

/// Names with the place of call 4, a send, in a package of a repository.
/// The receive of a handle that was dropped is none: nobody has ever read by it.
#[test]
fn a_refused_receive_is_no_use_of_a_receiver() {
    let folder = Folder::new("gone-receiver");
    let journal = "\
ttd-journal 2
broadcast 1
steps
1 0 0 send 0 5 = sent 1
2 0 0 send 0 6 = sent 1
3 1 0 drop 1 = dropped
4 1 0 recv 1 = gone
end
";
    fs::write(folder.0.join("orders.journal"), journal).unwrap();
    let (status, said, _) = run(&folder.0, &["why", "orders.journal"]);
    let told = "\n  call 3   held, never read ";
    assert!(status == 0 && said.contains(told), "{said}");
    let (_, json, _) = run(&folder.0, &["why", "orders.journal", "--json"]);
    assert!(json.contains("\"order\": 13"), "{json}");
}

fn names_with_places() -> String {
    let more = r#", "locations": [["src/a b.rs", 9, 5]], "calls": {"1": [null, null, null, 0]}, "root": "/repo/bus"}"#;
    NAMES.strip_suffix('}').unwrap().to_string() + more
}

#[test]
fn in_a_workflow_the_lines_have_commands() {
    let folder = Folder::new("workflow");
    let path = journal_in(&folder);
    fs::write(path.with_extension("names"), names_with_places()).unwrap();
    let said = |variables: &[(&str, &str)]| {
        let ran = Command::new(env!("CARGO_BIN_EXE_yovanelum"))
            .args(["why", "orders.journal"])
            .current_dir(&folder.0)
            .env_remove("GITHUB_ACTIONS")
            .env_remove("GITHUB_WORKSPACE")
            .envs(variables.iter().copied())
            .output();
        String::from_utf8(ran.unwrap().stdout).unwrap()
    };
    let plain = said(&[]);
    assert!(!plain.contains("::error") && plain.contains("  --> src/a b.rs:9:5\n"));
    let wanted = r#"::error file=bus/src/a b.rs,line=9,col=5,title=`audit` lost 2 of 3 values of `orders` (capacity 1) in two gaps; the last%2C of 1 value%3A::`audit` lost 2 of 3 values of `orders` (capacity 1) in two gaps; the last, of 1 value:%0A  call 4   orders.send(value 6)   actor 0  src/a b.rs:9   overwrote "first", which audit had not read%0A  call 5   told: lagged 1         audit                   its last receive: none before%0A  lost: "first"
"#;
    let look = "look: ";
    let beside = plain.replace(look, &format!("{wanted}{look}"));
    let variables = [("GITHUB_ACTIONS", "true"), ("GITHUB_WORKSPACE", "/repo")];
    assert_eq!(said(&variables), beside);
    // A path isn't changed if the repository is elsewhere.
    assert_eq!(said(&variables[..1]), beside.replace("file=bus/", "file="));
    assert_eq!(said(&[("GITHUB_ACTIONS", "false")]), plain);
}

/// What `why --sarif` prints of a run with one loss, with the properties that SARIF 2.1.0 requires.
const SARIF: &str = r#"{"$schema": "https://docs.oasis-open.org/sarif/sarif/v2.1.0/errata01/os/schemas/sarif-schema-2.1.0.json", "version": "2.1.0", "runs": [{"tool": {"driver": {"name": "yovanelum", "version": "0.1.0", "rules": [{"id": "failure", "shortDescription": {"text": "A test failed."}}, {"id": "waiting", "shortDescription": {"text": "A call on a channel waits."}}, {"id": "panic", "shortDescription": {"text": "Another thread or task panicked before the failure."}}, {"id": "loss", "shortDescription": {"text": "A receiver lost values of a broadcast channel."}}, {"id": "wait", "shortDescription": {"text": "A call waits that the failure came of."}}, {"id": "dropped", "shortDescription": {"text": "A call waited, and was dropped before it completed."}}, {"id": "empty", "shortDescription": {"text": "A receive found nothing."}}, {"id": "value", "shortDescription": {"text": "A receive returned this value."}}, {"id": "asked", "shortDescription": {"text": "A call was answered so."}}, {"id": "unreached", "shortDescription": {"text": "A send reached nobody."}}, {"id": "unlearned", "shortDescription": {"text": "A receiver never learned of changes of a watch channel."}}, {"id": "unlooked", "shortDescription": {"text": "A receiver marked changes of a watch channel as seen without a look."}}, {"id": "unmarked", "shortDescription": {"text": "A receiver never marked changes of a watch channel as seen."}}, {"id": "closing", "shortDescription": {"text": "A channel closed while it had receivers."}}]}}, "columnKind": "unicodeCodePoints", "originalUriBaseIds": {"SRCROOT": {"uri": "file:///repo/bus/"}}, "invocations": [{"executionSuccessful": true, "toolExecutionNotifications": [{"level": "warning", "message": {"text": "not all is known: 1 channel left the run for later ones"}}]}], "results": [{"ruleId": "loss", "ruleIndex": 3, "level": "error", "message": {"text": "`audit` lost 1 of 2 values of `orders` (capacity 1)\n  call 2   orders.send(value 1)   actor 0  src/a b.rs:9   overwrote value 0, which audit had not read\n  call 3   told: lagged 1         audit                   its last receive: none before\n  lost: value 0"}, "locations": [{"physicalLocation": {"artifactLocation": {"uri": "src/a%20b.rs", "uriBaseId": "SRCROOT"}, "region": {"startLine": 9, "startColumn": 5}}}], "codeFlows": [{"threadFlows": [{"locations": [{"executionOrder": 1, "location": {"physicalLocation": {"artifactLocation": {"uri": "src/a%20b.rs", "uriBaseId": "SRCROOT"}, "region": {"startLine": 9, "startColumn": 5}}, "message": {"text": "call 2   orders.send(value 1)   actor 0  src/a b.rs:9   overwrote value 0, which audit had not read"}}}, {"executionOrder": 2, "location": {"message": {"text": "call 3   told: lagged 1         audit                   its last receive: none before"}}}]}]}]}]}]}
"#;

#[test]
fn why_prints_the_account_as_sarif() {
    let folder = Folder::new("sarif");
    let path = folder.0.join("orders.journal");
    let journal = "ttd-journal 2\nbroadcast 1\nsteps\n1 0 0 send 0 0 = sent 1\n2 0 0 send 0 1 = sent 1\n3 1 0 recv 1 = lagged 1\nend\n";
    fs::write(&path, journal).unwrap();
    let names = r#"{"actors": {"1": "audit"}, "channels": {"0": "orders"}, "locations": [["src/a b.rs", 9, 5]], "calls": {"0": [null, 0, null]},
        "root": "/repo/bus", "unrecorded": {"channels": 0, "left": 1, "calls": false, "handles": 0}}"#;
    fs::write(path.with_extension("names"), names).unwrap();
    let said = |repository: Option<&str>| {
        let mut command = Command::new(env!("CARGO_BIN_EXE_yovanelum"));
        command.args(["why", "orders.journal", "--sarif"]);
        command
            .current_dir(&folder.0)
            .env_remove("GITHUB_WORKSPACE");
        let ran = command.envs(repository.map(|it| ("GITHUB_WORKSPACE", it)));
        String::from_utf8(ran.output().unwrap().stdout).unwrap()
    };
    assert_eq!(said(None), SARIF);
    // Code hosts know paths of the repository alone.
    let of_repository = SARIF
        .replace("file:///repo/bus/", "file:///repo/")
        .replace("\"uri\": \"src/", "\"uri\": \"bus/src/");
    assert_eq!(said(Some("/repo")), of_repository);
}

#[test]
fn each_result_of_sarif_has_a_place() {
    let folder = Folder::new("placeless");
    let path = folder.0.join("orders.journal");
    let journal = "ttd-journal 2\nbroadcast 1\nsteps\n1 0 0 send 0 0 = sent 1\n2 0 0 send 0 1 = sent 1\n3 1 0 recv 1 = lagged 1\nend\n";
    fs::write(&path, journal).unwrap();
    let sarif = |names: &str| {
        fs::write(path.with_extension("names"), names).unwrap();
        let (status, said, _) = run(&folder.0, &["why", "orders.journal", "--sarif"]);
        assert_eq!(status, 0);
        said
    };
    // Nothing has a place: the loss is a notification.
    let said = sarif("{}");
    assert!(said.contains("\"results\": []"), "{said}");
    assert!(
        said.contains(
            "{\"level\": \"error\", \"message\": {\"text\": \"receiver 1 lost 1 of 2 values"
        ),
        "{said}"
    );
    // The panic has one, and so the loss has that, too. The call that waits has its own.
    let names = r#"{"locations": [["a.rs", 5, 9], ["b.rs", 7, 1]], "panics": [{"text": "no", "location": 0, "actor": 1, "since": 3}],
        "waiting": [{"actor": 0, "channel": 0, "handle": 0, "call": "closed", "since": 3, "location": 1}]}"#;
    let said = sarif(names);
    for (rule, place) in [
        ("\"failure\", \"ruleIndex\": 0", "a.rs"),
        ("\"loss\", \"ruleIndex\": 3", "a.rs"),
        ("\"waiting\", \"ruleIndex\": 1", "b.rs"),
    ] {
        let result = said
            .split("{\"ruleId\": ")
            .find(|part| part.starts_with(rule));
        let uri = format!(
            "\"locations\": [{{\"physicalLocation\": {{\"artifactLocation\": {{\"uri\": \"{place}\""
        );
        assert!(result.unwrap().contains(&uri), "{rule} {said}");
    }
    // A call of a library has the place where its sender was created. A panic there has none.
    let names = names.replace("a.rs", "/home/me/.cargo/registry/src/a.rs");
    let names = names.replace("\"location\": 1", "\"location\": 0");
    let names = names.replacen('{', r#"{"made": {"0": {"0": 1}}, "#, 1);
    let said = sarif(&names);
    let places: Vec<_> = said.split("\"uri\": \"").skip(1).collect();
    assert!(
        said.contains("\"results\": [{\"ruleId\": \"waiting\""),
        "{said}"
    );
    assert!(
        matches!(places[..], [place] if place.starts_with("b.rs")),
        "{said}"
    );
}

#[test]
fn open_writes_the_page_and_why_then_leads_to_it() {
    let folder = Folder::new("open #1");
    let path = journal_in(&folder);
    let page = path.with_extension("html");
    let address = format!("{}#call=4", address(&page));
    let address = address.replace("open #1", "open%20%231");
    let (status, out, told) = run(&folder.0, &["open", "orders.journal"]);
    assert_eq!((status, out.as_str()), (0, "orders.html\n"));
    assert_eq!(told, format!("look: {address}\n"));
    let text = fs::read_to_string(&page).unwrap();
    assert!(text.contains(&format!("\n{JOURNAL}</script>\n")));
    let (_, out, _) = run(&folder.0, &["why", "orders.journal"]);
    assert!(out.ends_with(&format!("look: {address}\n")), "{out}");
}

#[test]
fn a_journal_of_another_name_keeps_its_file() {
    let folder = Folder::new("other");
    fs::write(folder.0.join("orders.html"), JOURNAL).unwrap();
    let (status, out, _) = run(&folder.0, &["open", "orders.html"]);
    assert_eq!((status, out.as_str()), (0, "orders.html.html\n"));
    let kept = fs::read_to_string(folder.0.join("orders.html")).unwrap();
    assert_eq!(kept, JOURNAL);
}

/// Returns what `ttd check` writes, or `None` where no program can be started.
fn checked(path: &Path) -> Option<String> {
    let ttd = console::ttd()?;
    let checked = Command::new(ttd).arg("check").arg(path).output().unwrap();
    Some(String::from_utf8(checked.stdout).unwrap())
}

#[test]
fn a_journal_that_is_refused_has_its_fault_and_its_line() {
    let folder = Folder::new("refused");
    let path = folder.0.join("x.journal");
    for (text, fault) in [
        (JOURNAL.replace("lagged 1", "lagged 2"), "wrong-reply 9"),
        (
            JOURNAL.replace("6 1 1 drop", "5 1 1 drop"),
            "wrong-order 10",
        ),
        (
            JOURNAL.replace("broadcast 1", "broadcast 0"),
            "limit-exceeded 3",
        ),
        (
            JOURNAL.replace("subscribe 0 = new 2", "subscribe"),
            "malformed 5",
        ),
        (JOURNAL.replace("\nend\n", "\n"), "truncated"),
    ] {
        fs::write(&path, text).unwrap();
        let wanted = (1, format!("journal fault {fault}\n"), String::new());
        for words in [
            &["why", "x.journal"][..],
            &["why", "x.journal", "--json"],
            &["why", "x.journal", "--sarif"],
            &["open", "x.journal"],
        ] {
            assert_eq!(run(&folder.0, words), wanted);
        }
        assert!(checked(&path).is_none_or(|checked| checked == wanted.1));
    }
    fs::write(&path, b"ttd-journal 2\n\xff\n").unwrap();
    let said = run(&folder.0, &["why", "x.journal"]);
    assert_eq!(
        said,
        (1, "journal fault malformed 2\n".to_string(), String::new())
    );
    assert!(!folder.0.join("x.html").exists());
}

#[test]
fn names_that_cannot_be_read_are_left_out() {
    let folder = Folder::new("names");
    let path = journal_in(&folder);
    fs::write(path.with_extension("names"), "{\"channels\": [1]}").unwrap();
    let (status, out, told) = run(&folder.0, &["why", "orders.journal"]);
    assert_eq!(status, 0);
    assert!(out.starts_with("error: receiver 2 lost 2 of 3 values of channel 1"));
    assert_eq!(
        told,
        "yovanelum: orders.names is left out: its `channels`: no object\n"
    );
}

#[test]
fn the_names_of_another_journal_are_left_out() {
    let folder = Folder::new("another");
    let path = journal_in(&folder);
    let sum = checksum(JOURNAL.as_bytes());
    let names = |sum: &str| {
        NAMES.replace(
            "{\"actors\"",
            &format!("{{\"journal\": \"{sum}\", \"actors\""),
        )
    };
    fs::write(path.with_extension("names"), names(&sum)).unwrap();
    let (status, out, told) = run(&folder.0, &["why", "orders.journal"]);
    assert_eq!((status, told.as_str()), (0, ""));
    assert!(out.contains("`orders`"), "{out}");

    fs::write(path.with_extension("names"), names("00000000000000ff")).unwrap();
    let line = "yovanelum: orders.names is left out: it has the names of another journal\n";
    let (status, out, told) = run(&folder.0, &["why", "orders.journal"]);
    assert_eq!((status, told.as_str()), (0, line));
    assert!(!out.contains("`orders`"), "{out}");
    let (status, _, told) = run(&folder.0, &["open", "orders.journal"]);
    assert!(status == 0 && told.starts_with(line), "{told}");
    // The page is as without them.
    let page = fs::read_to_string(path.with_extension("html")).unwrap();
    fs::remove_file(path.with_extension("names")).unwrap();
    run(&folder.0, &["open", "orders.journal"]);
    let without = fs::read_to_string(path.with_extension("html")).unwrap();
    assert!(page == without);
    fs::write(path.with_extension("names"), NAMES).unwrap();
    run(&folder.0, &["open", "orders.journal"]);
    let with = fs::read_to_string(path.with_extension("html")).unwrap();
    assert!(page != with);
    assert!(page.contains(&format!("id=\"journal\">\n{JOURNAL}</script>\n")));
}

/// The same calls as in [`JOURNAL`], but the audit received before the second send.
const PASSED: &str = "\
ttd-journal 2
watch 0
broadcast 1
steps
1 0 1 subscribe 0 = new 2
2 0 1 subscribe 0 = new 3
3 0 1 send 0 5 = sent 3
4 1 1 recv 2 = value 5
5 0 1 send 0 6 = sent 3
6 1 1 drop 3 = dropped
7 0 1 send 0 7 = sent 2
end
";

#[test]
fn why_against_another_run_prints_the_first_call_that_differs() {
    let folder = Folder::new("against");
    let path = journal_in(&folder);
    let failed = NAMES.replacen('{', r#"{"failed": true, "#, 1);
    fs::write(path.with_extension("names"), failed).unwrap();
    fs::write(folder.0.join("passed.journal"), PASSED).unwrap();
    fs::write(folder.0.join("passed.names"), NAMES).unwrap();
    let wanted = "\
the first difference: call 5, `audit` received before the send in the passing run
  here    call 4   orders.send(value 6)   actor 0  sent 3
  here    call 5   orders.recv()          audit    lagged 1
  there   call 4   orders.recv()          audit    \"first\"
  there   call 5   orders.send(value 6)   actor 0  sent 3
7 calls here, 7 calls there: 1 differs
";
    let words = ["why", "orders.journal", "--against", "passed.journal"];
    let answer = run(&folder.0, &words);
    assert_eq!(answer, (0, wanted.to_string(), String::new()));
    // A run doesn't differ from itself.
    let words = ["why", "--against", "orders.journal", "orders.journal"];
    let wanted = "no call differs\n7 calls here, 7 calls there: all the same\n";
    assert_eq!(run(&folder.0, &words).1, wanted);
    let words = [
        "why",
        "orders.journal",
        "--json",
        "--against",
        "passed.journal",
    ];
    let (status, out, _) = run(&folder.0, &words);
    let start = r#"{"version": 1, "calls": [7, 7], "differing": [{"kind": "order", "here": 5, "there": 4}], "text": ["the first"#;
    assert!(status == 0 && out.starts_with(start), "{out}");
    let (status, _, told) = run(
        &folder.0,
        &["why", "orders.journal", "--against", "none.journal"],
    );
    assert!(
        status == 4 && told.starts_with("read error: none.journal: "),
        "{told}"
    );
    fs::write(folder.0.join("passed.journal"), "ttd-journal 2\n").unwrap();
    let words = ["why", "orders.journal", "--against", "passed.journal"];
    assert_eq!(run(&folder.0, &words).1, "journal fault truncated\n");
}

#[test]
fn the_version_is_that_of_the_package_as_cargos_tools_print_theirs() {
    let folder = Folder::new("version");
    let version = env!("CARGO_PKG_VERSION");
    for word in ["--version", "-V"] {
        let said = run(&folder.0, &[word]);
        assert_eq!(said, (0, format!("yovanelum {version}\n"), String::new()));
    }
    let (status, out, told) = run(&folder.0, &["why", "a", "--version"]);
    assert_eq!((status, out.as_str()), (2, ""));
    assert!(told.starts_with("yovanelum: there is no option `--version`\n"));
}

#[test]
fn a_command_line_that_is_wrong_is_answered_by_the_usage() {
    let folder = Folder::new("usage");
    for (words, fault) in [
        (&[][..], "a command is missing"),
        (&["why"], "the journal is missing"),
        (&["why", "a", "b"], "give one journal"),
        (&["who", "a"], "there is no command `who`"),
        (&["why", "a", "--jsn"], "there is no option `--jsn`"),
        (&["open", "a", "--json"], "`--json` is an option of `why`"),
        (&["open", "a", "--sarif"], "`--sarif` is an option of `why`"),
        (
            &["why", "a", "--against"],
            "`--against` needs the journal of another run",
        ),
        (
            &["why", "a", "--against", "b", "--against", "c"],
            "give one `--against`",
        ),
        (
            &["why", "a", "--against", "b", "--sarif"],
            "`--against` has no `--sarif`",
        ),
        (
            &["open", "a", "--against", "b"],
            "`--against` is an option of `why`",
        ),
        (
            &["open", "a", "--no-picture"],
            "`--no-picture` is an option of `why`",
        ),
        (
            &["why", "a", "--json", "--sarif"],
            "give one of `--sources`, `--json` and `--sarif`",
        ),
    ] {
        let (status, out, told) = run(&folder.0, words);
        assert_eq!((status, out.as_str()), (2, ""));
        let start = format!(
            "yovanelum: {fault}\n\nUsage: yovanelum why JOURNAL [--sources | --json | --sarif] [--no-picture]\n"
        );
        assert!(told.starts_with(&start), "{told}");
    }
    let (status, out, told) = run(&folder.0, &["--help"]);
    assert_eq!((status, told.as_str()), (0, ""));
    assert!(out.starts_with("Usage: yovanelum why"));
}

#[test]
fn a_file_that_cannot_be_read_or_written_is_a_fault() {
    let folder = Folder::new("faults");
    let (status, out, told) = run(&folder.0, &["why", "none.journal"]);
    assert_eq!((status, out.as_str()), (4, ""));
    assert!(told.starts_with("read error: none.journal: "), "{told}");
    journal_in(&folder);
    fs::create_dir(folder.0.join("orders.html")).unwrap();
    let (status, out, told) = run(&folder.0, &["open", "orders.journal"]);
    assert_eq!((status, out.as_str()), (4, ""));
    assert!(told.starts_with("write error: orders.html: "), "{told}");
}

#[test]
fn a_reader_that_is_gone_is_a_write_fault() {
    let folder = Folder::new("gone");
    journal_in(&folder);
    let mut command = Command::new(env!("CARGO_BIN_EXE_yovanelum"))
        .args(["why", "orders.journal"])
        .current_dir(&folder.0)
        .stdin(Stdio::null())
        .stdout(
            fs::OpenOptions::new()
                .write(true)
                .open("/dev/full")
                .map_or(Stdio::null(), Stdio::from),
        )
        .stderr(Stdio::null())
        .spawn()
        .unwrap();
    let status = command.wait().unwrap().code();
    assert!(
        status == Some(4) || !Path::new("/dev/full").exists(),
        "{status:?}"
    );
}

/// A folder with programs that are the command under other names. It is beside the command, so that
/// they are links: a copy can't be started while another thread that starts a program has it open.
struct Programs(PathBuf);

impl Programs {
    fn new(name: &str, programs: &[&str]) -> Programs {
        let folder = format!("{name}-{}", std::process::id());
        let folder = Path::new(env!("CARGO_TARGET_TMPDIR")).join(folder);
        fs::create_dir_all(&folder).unwrap();
        let programs_in = Programs(folder);
        for program in programs {
            fs::hard_link(env!("CARGO_BIN_EXE_yovanelum"), programs_in.path(program)).unwrap();
        }
        programs_in
    }

    fn path(&self, program: &str) -> PathBuf {
        self.0
            .join(format!("{program}{}", std::env::consts::EXE_SUFFIX))
    }
}

impl Drop for Programs {
    fn drop(&mut self) {
        let _ = fs::remove_dir_all(&self.0);
    }
}

#[test]
fn dap_says_how_the_adapter_is_installed() {
    let programs = Programs::new("dap_missing", &["yovanelum"]);
    let mut command = Command::new(programs.path("yovanelum"));
    let command = command.arg("dap").env("PATH", &programs.0);
    let ended = command.output().unwrap();
    let said = String::from_utf8(ended.stderr).unwrap();
    let wanted =
        "yovanelum: `dap` needs the program yovanelum-dap: cargo install --path rust/dap\n";
    assert_eq!((said.as_str(), ended.status.code()), (wanted, Some(69)));
}

#[test]
fn dap_starts_the_adapter_beside_it_with_its_words() {
    // Any program will do: this one refuses the words that it gets.
    let programs = Programs::new("dap_beside", &["yovanelum", "yovanelum-dap"]);
    let mut command = Command::new(programs.path("yovanelum"));
    let ended = command.args(["dap", "sideways"]).output().unwrap();
    let said = String::from_utf8(ended.stderr).unwrap();
    assert!(
        said.starts_with("yovanelum: there is no command `sideways`\n"),
        "{said}"
    );
    assert_eq!(ended.status.code(), Some(2));
}

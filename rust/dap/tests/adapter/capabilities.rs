//! Each capability that the adapter claims is used by a request that shows it.

use crate::support::{Client, Folder, Lines, TICKER, save_bus, this_file};
use serde_json::{Value, json};
use std::collections::BTreeMap;

/// A session at the first stop, behind the send that overwrote a value.
struct Session {
    client: Client,
    lines: Lines,
}

impl Session {
    fn number(&mut self) -> String {
        self.client.console("number")
    }

    /// Sets a breakpoint at the line of the sends, and returns at which call a continue from the
    /// start stops.
    fn stops_at(&mut self, mut breakpoint: Value) -> String {
        breakpoint["line"] = self.lines.send.into();
        let given = json!({"source": {"path": this_file()}, "breakpoints": [breakpoint]});
        self.client.ask("setBreakpoints", given);
        self.client.console("start");
        self.client.event("stopped");
        self.client.go("continue", json!({"threadId": TICKER}));
        self.number()
    }

    fn top_frame(&mut self) -> Value {
        self.client.frames(TICKER)[0]["id"].clone()
    }
}

fn configuration(it: &mut Session) {
    // The session has begun by it.
    let said = it.client.refusal("configurationDone", json!({}));
    assert_eq!(said, "the configuration is done already");
}

fn functions(it: &mut Session) {
    let set = json!({"breakpoints": [{"name": "prices.drop"}]});
    let set = it.client.ask("setFunctionBreakpoints", set);
    assert_eq!(set["breakpoints"][0]["verified"], true);
    it.client.go("continue", json!({"threadId": TICKER}));
    assert_eq!(it.number(), "4");
}

fn conditions(it: &mut Session) {
    assert_eq!(
        it.stops_at(json!({"condition": "auditor.unread == 2"})),
        "2"
    );
}

fn hit_conditions(it: &mut Session) {
    assert_eq!(it.stops_at(json!({"hitCondition": "3"})), "3");
}

fn logs(it: &mut Session) {
    assert_eq!(it.stops_at(json!({"logMessage": "{number}"})), "9");
}

fn hovers(it: &mut Session) {
    let given = json!({"expression": "auditor.lag", "context": "hover"});
    assert_eq!(it.client.ask("evaluate", given)["result"], "1");
}

fn back(it: &mut Session) {
    it.client.go("stepBack", json!({"threadId": TICKER}));
    assert_eq!(it.number(), "2");
    it.client.go("reverseContinue", json!({"threadId": TICKER}));
    assert_eq!(it.number(), "0");
}

fn frames_again(it: &mut Session) {
    let frame = it.client.frames(TICKER)[2]["id"].clone();
    let stop = it.client.go("restartFrame", json!({"frameId": frame}));
    assert_eq!(
        (&stop["reason"], it.number()),
        (&"restart".into(), "1".into())
    );
}

fn gotos(it: &mut Session) {
    let given = json!({"source": {"path": this_file()}, "line": it.lines.recv});
    let targets = it.client.ask("gotoTargets", given)["targets"].clone();
    let given = json!({"threadId": TICKER, "targetId": targets[0]["id"]});
    it.client.go("goto", given);
    assert_eq!(it.number(), "5");
}

fn targets(it: &mut Session) {
    let frame = it.top_frame();
    let targets = it.client.ask("stepInTargets", json!({"frameId": frame}))["targets"].clone();
    it.client.go(
        "stepIn",
        json!({"threadId": TICKER, "targetId": targets[0]["id"]}),
    );
    assert_eq!(it.number(), "7");
}

fn completions(it: &mut Session) {
    let given = json!({"text": "rback lagging au", "column": 17});
    assert_eq!(
        it.client.ask("completions", given)["targets"][0]["label"],
        "auditor"
    );
}

fn filter_options(it: &mut Session) {
    let options = json!([{"filterId": "lagged", "condition": "auditor.lag > 7"}, {"filterId": "closed", "condition": "number > 7"}]);
    it.client.ask(
        "setExceptionBreakpoints",
        json!({"filters": [], "filterOptions": options}),
    );
    it.client.go("continue", json!({"threadId": TICKER}));
    assert_eq!(it.number(), "8");
}

fn exceptions(it: &mut Session) {
    let info = it.client.ask("exceptionInfo", json!({"threadId": TICKER}));
    assert_eq!(
        (&info["exceptionId"], &info["breakMode"]),
        (&"lost".into(), &"always".into())
    );
}

fn terminate(it: &mut Session) {
    it.client.ask("terminate", json!({}));
    it.client.event("terminated");
}

fn restart(it: &mut Session) {
    it.client.console("start");
    it.client.event("stopped");
    it.client.ask("restart", json!({}));
    assert_eq!(it.client.event("stopped")["reason"], "entry");
    assert_eq!(it.number(), "3");
    // The latest arguments count, as those that the user has edited since.
    let folder = Folder::new();
    let (journal, _) = save_bus(&folder, "another");
    let latest = json!({"arguments": {"journal": journal, "stopAt": 5}});
    it.client.ask("restart", latest);
    it.client.event("stopped");
    assert_eq!(it.number(), "5");
}

fn frames_in_parts(it: &mut Session) {
    let given = json!({"threadId": TICKER, "startFrame": 1, "levels": 1});
    let part = it.client.ask("stackTrace", given);
    assert_eq!(
        (
            part["stackFrames"].as_array().unwrap().len(),
            &part["totalFrames"]
        ),
        (1, &json!(3))
    );
    assert_eq!(
        part["stackFrames"][0]["name"],
        "call 2: prices.send(\"102 EUR\") = sent 1"
    );
}

fn sources(it: &mut Session) {
    let sources = it.client.ask("loadedSources", json!({}))["sources"].clone();
    assert_eq!(sources[0]["path"], json!(this_file()));
}

fn data(it: &mut Session) {
    it.client.console("end");
    it.client.event("stopped");
    let info = it
        .client
        .ask("dataBreakpointInfo", json!({"name": "auditor"}));
    let set = json!({"breakpoints": [{"dataId": info["dataId"]}]});
    it.client.ask("setDataBreakpoints", set);
    it.client.go("reverseContinue", json!({"threadId": TICKER}));
    assert_eq!(it.number(), "3");
}

fn locations(it: &mut Session) {
    let given =
        json!({"source": {"path": this_file()}, "line": it.lines.send, "endLine": it.lines.recv});
    let lines = it.client.ask("breakpointLocations", given)["breakpoints"].clone();
    assert_eq!(
        (&lines[0]["line"], &lines[1]["line"]),
        (&it.lines.send.into(), &it.lines.recv.into())
    );
}

fn granularity(it: &mut Session) {
    it.client.go(
        "next",
        json!({"threadId": TICKER, "granularity": "statement"}),
    );
    it.client.go(
        "next",
        json!({"threadId": TICKER, "granularity": "instruction"}),
    );
    // The ticker's own next call was its drop, and the next of all is the auditor's.
    assert_eq!(it.number(), "5");
}

fn cancel(it: &mut Session) {
    it.client.ask("cancel", json!({"requestId": 1}));
    it.client.ask("cancel", json!({"progressId": "test"}));
}

/// Uses a capability.
type Show = fn(&mut Session);

/// What each capability is shown by.
const SHOWN: [(&str, Show); 21] = [
    ("supportsConfigurationDoneRequest", configuration),
    ("supportsFunctionBreakpoints", functions),
    ("supportsConditionalBreakpoints", conditions),
    ("supportsHitConditionalBreakpoints", hit_conditions),
    ("supportsEvaluateForHovers", hovers),
    ("supportsStepBack", back),
    ("supportsRestartFrame", frames_again),
    ("supportsGotoTargetsRequest", gotos),
    ("supportsStepInTargetsRequest", targets),
    ("supportsCompletionsRequest", completions),
    ("supportsExceptionFilterOptions", filter_options),
    ("supportsExceptionInfoRequest", exceptions),
    ("supportsTerminateRequest", terminate),
    ("supportsRestartRequest", restart),
    ("supportsDelayedStackTraceLoading", frames_in_parts),
    ("supportsLoadedSourcesRequest", sources),
    ("supportsLogPoints", logs),
    ("supportsDataBreakpoints", data),
    ("supportsBreakpointLocationsRequest", locations),
    ("supportsSteppingGranularity", granularity),
    ("supportsCancelRequest", cancel),
];

#[test]
fn each_capability_that_is_claimed_is_there() {
    let folder = Folder::new();
    let mut shown: BTreeMap<_, _> = SHOWN.into_iter().collect();
    let mut client = Client::new(false);
    let claimed = client.ask("initialize", json!({"adapterID": "yovanelum"}));
    for (capability, value) in claimed.as_object().unwrap() {
        if capability == "exceptionBreakpointFilters" {
            continue;
        }
        assert_eq!(*value, true, "{capability}");
        let show = shown
            .remove(capability.as_str())
            .unwrap_or_else(|| panic!("nothing shows {capability}"));
        let (journal, lines) = save_bus(&folder, "bus");
        let mut client = Client::new(false);
        client.launch(json!({"journal": journal}));
        show(&mut Session { client, lines });
    }
    assert!(shown.is_empty(), "not claimed: {:?}", shown.keys());
}

#[test]
fn each_filter_that_is_listed_stops_with_and_without_a_condition() {
    let folder = Folder::new();
    let (journal, _) = save_bus(&folder, "bus");
    let mut client = Client::new(false);
    let claimed = client.ask("initialize", json!({}));
    let filters = claimed["exceptionBreakpointFilters"].as_array().unwrap();
    let listed: Vec<_> = filters
        .iter()
        .map(|it| {
            (
                it["filter"].as_str().unwrap(),
                it["default"].as_bool().unwrap(),
            )
        })
        .collect();
    assert_eq!(
        listed,
        [("lost", true), ("lagged", true), ("closed", false)]
    );
    client.ask("launch", json!({"journal": journal, "stopAt": "start"}));
    client.ask("configurationDone", json!({}));
    client.event("stopped");
    for (filter, place) in listed.iter().zip(["3", "5", "8"]) {
        client.console("start");
        client.event("stopped");
        client.ask("setExceptionBreakpoints", json!({"filters": [filter.0]}));
        let stop = client.go("continue", json!({"threadId": TICKER}));
        assert_eq!(
            (&stop["reason"], client.console("number")),
            (&"exception".into(), place.to_string())
        );
        client.console("start");
        client.event("stopped");
        let options = json!([{"filterId": filter.0, "condition": "number > 8"}]);
        client.ask("setExceptionBreakpoints", json!({"filterOptions": options}));
        let stop = client.go("continue", json!({"threadId": TICKER}));
        assert_eq!(stop["text"], "the end of the run");
    }
}

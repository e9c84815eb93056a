//! What an editor waits for, in processor time of the adapter: `cargo bench`, on Linux. It fails
//! where something takes longer than it may, times what the variable `YOVANELUM_SLACK` says: a busy
//! machine's processors are slower. It has to in each of three turns, since what slows down one
//! seldom slows down all.

use serde_json::{Value, json};
use std::cmp::Ordering;
use std::fs;
use std::io::{BufRead, BufReader, Read, Write};
use std::path::{Path, PathBuf};
use std::process::{Child, ChildStdout, Command, ExitCode, Stdio};
use std::time::Duration;
use yovanelum::{Recorder, broadcast};

/// How many values the channel retains, and after how many the slow receiver begins to read.
const CAPACITY: usize = 1024;
const LATE: usize = 2000;

/// How often all is measured at most.
const TURNS: usize = 3;

/// Saves a run of a sender and two receivers, of which one is late, and returns the line of the
/// sends.
fn save(path: &Path, sends: usize) -> u32 {
    let recorder = Recorder::new();
    let _entered = recorder.enter();
    let (orders, mut prompt) = broadcast::channel(CAPACITY);
    let mut late = orders.subscribe();
    recorder.name(&orders, "orders");
    recorder.name(&prompt, "prompt").name(&late, "late");
    recorder.show(&orders, |order| format!("order {order}"));
    let line = line!() + 2;
    for order in 0..sends {
        orders.send(order).unwrap();
        prompt.try_recv().unwrap();
        let receives = match order.cmp(&LATE.min(sends / 2)) {
            Ordering::Less => 0,
            Ordering::Equal => CAPACITY + 1,
            Ordering::Greater => 1,
        };
        for _ in 0..receives {
            // The first one of many lagged, and the last may find nothing.
            let _ = late.try_recv();
        }
    }
    recorder.save(path).unwrap();
    line
}

/// The adapter, as an editor starts it.
struct Adapter {
    process: Child,
    output: BufReader<ChildStdout>,
    count: u64,
}

impl Adapter {
    fn start() -> Adapter {
        let mut process = Command::new(env!("CARGO_BIN_EXE_yovanelum-dap"))
            .stdin(Stdio::piped())
            .stdout(Stdio::piped())
            .spawn()
            .unwrap();
        let output = BufReader::new(process.stdout.take().unwrap());
        Adapter {
            process,
            output,
            count: 0,
        }
    }

    fn next(&mut self) -> Value {
        let mut header = String::new();
        self.output.read_line(&mut header).unwrap();
        let length = header.trim_end().strip_prefix("Content-Length: ");
        let mut bytes = vec![0; length.unwrap().parse::<usize>().unwrap() + 2];
        self.output.read_exact(&mut bytes).unwrap();
        serde_json::from_slice(&bytes).unwrap()
    }

    fn ask(&mut self, command: &str, arguments: Value) -> Value {
        self.count += 1;
        let request = json!({"seq": self.count, "type": "request", "command": command, "arguments": arguments});
        let text = request.to_string();
        let input = self.process.stdin.as_mut().unwrap();
        write!(input, "Content-Length: {}\r\n\r\n{text}", text.len()).unwrap();
        input.flush().unwrap();
        let mut message = self.next();
        while message["type"] != "response" || message["command"] != command {
            message = self.next();
        }
        assert_eq!(message["success"], true, "{message}");
        message["body"].take()
    }

    /// Makes a move, and returns where it stopped.
    fn go(&mut self, command: &str, arguments: Value) -> Value {
        self.ask(command, arguments);
        let mut message = self.next();
        while message["event"] != "stopped" {
            message = self.next();
        }
        message["body"].take()
    }

    fn launch(&mut self, journal: &Path, stop_at: Value) -> u64 {
        self.ask("initialize", json!({}));
        self.ask("launch", json!({"journal": journal, "stopAt": stop_at}));
        let stop = self.go("configurationDone", json!({}));
        stop["threadId"].as_u64().unwrap()
    }

    /// Asks for all that an editor shows at a stop.
    fn look(&mut self, thread: u64) {
        let stack = self.ask("stackTrace", json!({"threadId": thread, "levels": 20}));
        let frame = stack["stackFrames"][0]["id"].clone();
        let scopes = self.ask("scopes", json!({"frameId": frame}));
        for scope in scopes["scopes"].as_array().unwrap() {
            let reference = scope["variablesReference"].clone();
            self.ask("variables", json!({"variablesReference": reference}));
        }
    }

    fn step(&mut self) -> u64 {
        let answer = self.ask("evaluate", json!({"expression": "number"}));
        answer["result"].as_str().unwrap().parse().unwrap()
    }

    /// How long processors have worked for the adapter.
    fn worked(&self) -> Duration {
        let tasks = fs::read_dir(format!("/proc/{}/task", self.process.id())).unwrap();
        let of_task = |task: fs::DirEntry| {
            let times = fs::read_to_string(task.path().join("schedstat")).ok()?;
            times.split(' ').next()?.parse::<u64>().ok()
        };
        Duration::from_nanos(tasks.filter_map(|task| of_task(task.unwrap())).sum())
    }

    /// How much memory it takes, and took at most, in MB.
    fn memory(&self) -> (u64, u64) {
        let status = fs::read_to_string(format!("/proc/{}/status", self.process.id())).unwrap();
        let of = |key: &str| {
            let mut lines = status.lines();
            let line = lines.find_map(|line| line.strip_prefix(key)).unwrap();
            line.trim()
                .split(' ')
                .next()
                .unwrap()
                .parse::<u64>()
                .unwrap()
                / 1024
        };
        (of("VmRSS:"), of("VmHWM:"))
    }
}

impl Drop for Adapter {
    fn drop(&mut self) {
        let _ = self.process.kill();
        let _ = self.process.wait();
    }
}

/// What was measured: whether each took no longer than it may.
struct Figures {
    are_right: bool,
    slack: u32,
}

impl Figures {
    fn tell(&mut self, what: &str, took: Duration, most: Duration) {
        let is_right = took <= most * self.slack;
        self.are_right &= is_right;
        let mark = if is_right { "" } else { "   TOO LONG" };
        let (took, most) = (took.as_secs_f64() * 1e3, most.as_secs_f64() * 1e3);
        println!("{what:<60} {took:9.2} ms of {most:5.0}{mark}");
    }
}

/// Measures what the adapter does in a closure.
fn work(adapter: &mut Adapter, does: impl FnOnce(&mut Adapter)) -> Duration {
    let before = adapter.worked();
    does(adapter);
    adapter.worked() - before
}

fn first_stops(figures: &mut Figures, small: &Path, large: &Path) {
    for (journal, what, most) in [
        (small, "first stop, 1,274 calls", 100),
        (large, "first stop, 967,000 calls", 1500),
    ] {
        let mut adapter = Adapter::start();
        let thread = adapter.launch(journal, json!("cause"));
        adapter.look(thread);
        figures.tell(what, adapter.worked(), Duration::from_millis(most));
    }
}

fn moves(figures: &mut Figures, large: &Path, source: &Path, line: u32) {
    let mut adapter = Adapter::start();
    let thread = adapter.launch(large, json!("end"));
    let end = adapter.step();
    let back = json!({"threadId": thread});
    let took = work(&mut adapter, |adapter| {
        for _ in 0..100 {
            adapter.go("stepBack", back.clone());
            adapter.look(thread);
        }
    });
    figures.tell(
        "step back, with stack, scopes and variables",
        took / 100,
        Duration::from_millis(5),
    );
    let took = work(&mut adapter, |adapter| {
        adapter.go("reverseContinue", back.clone());
        adapter.look(thread);
    });
    assert_eq!(adapter.step(), 0);
    figures.tell("reverse to the start", took, Duration::from_millis(50));
    let took = work(&mut adapter, |adapter| {
        adapter.go("continue", back.clone());
        adapter.look(thread);
    });
    assert_eq!(adapter.step(), end);
    figures.tell("continue to the end", took, Duration::from_millis(50));
    adapter.go("reverseContinue", back.clone());
    // It is true at no call, so that each is asked.
    let breakpoint = json!({"source": {"path": source}, "breakpoints": [{"line": line, "condition": "late.lag > 1000000"}]});
    let took = work(&mut adapter, |adapter| {
        adapter.ask("setBreakpoints", breakpoint);
        adapter.go("continue", back.clone());
    });
    assert_eq!(adapter.step(), end);
    figures.tell(
        "a breakpoint whose condition is asked 322,600 times",
        took,
        Duration::from_millis(500),
    );
    let (now, most) = adapter.memory();
    println!("memory: {now} MB, and {most} MB while the journal was opened");
}

fn main() -> ExitCode {
    let folder = std::env::temp_dir().join(format!("yovanelum-dap-bench-{}", std::process::id()));
    fs::create_dir_all(&folder).unwrap();
    let (small, large) = (folder.join("small.journal"), folder.join("large.journal"));
    save(&small, 100);
    let line = save(&large, 322_600);
    let source = PathBuf::from(std::env::var_os("CARGO_MANIFEST_DIR").unwrap()).join(file!());
    let are_right = (0..TURNS).any(|_| {
        let slack = std::env::var("YOVANELUM_SLACK").ok();
        let mut figures = Figures {
            are_right: true,
            slack: slack.map_or(1, |slack| slack.parse().unwrap()),
        };
        first_stops(&mut figures, &small, &large);
        moves(&mut figures, &large, &source, line);
        figures.are_right
    });
    fs::remove_dir_all(&folder).unwrap();
    ExitCode::from(u8::from(!are_right))
}

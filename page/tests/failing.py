"""The pages that failing tests leave: a package over the crate is tested by cargo, and each page is opened at the address that its test prints.
What the report, `why`, `why --json` and the page say of a test is one account, and what its source says."""
import functools
import json
import os
import re
import shutil
import signal
import subprocess
import threading
from dataclasses import dataclass, field

import native
import opening

SOURCES = os.path.join(native.TOP, "page", "tests", "failing")
PACKAGE = os.path.join(native.PICTURES, "failing")
MANIFEST = """[package]
name = "shop"
version = "0.0.0"
edition = "2024"

[dependencies]
yovanelum = {{ path = {path} }}

[dev-dependencies]
tokio = {{ version = "=1.24.2", default-features = false, features = ["rt-multi-thread"] }}

[workspace]
"""
CARGO = ["cargo", "test", "--offline", "--test", "failing"]
# How many seconds cargo may take. It only ends what hangs.
PATIENCE = 1800
HANGS = "the_state_is_ready"
# Its journal has as many calls as a journal takes, too many to walk through.
FULL = "the_last_tick_arrives"
# It fills all channels that a recorder takes.
LAST_BUS = "the_last_bus_is_read"
LOOK = re.compile(r"^look: file://(\S+)#call=(\d+)$", re.M)


@dataclass
class Wanted:
    """What the page of a test has to show, as its source says. A call is its text, what else its sentence has, and the comment at its line.
    The account is a list of facts, each a list of lines with single spaces. A comment in braces stands for its place in the sources."""
    actors: set
    channels: list
    receivers: dict
    texts: set
    calls: list
    account: list
    lost: dict = field(default_factory=dict)
    unknown: list = field(default_factory=list)
    rest: str | None = None
    nothing: str | None = None
    waiting: list = field(default_factory=list)
    # What the page says besides: the changes that a receiver never looked at, and of a call that waits what its channel has at the end.
    besides: list = field(default_factory=list)


def note(number):
    """The text of an order by `{:#?}`, with the ends of its lines as the page writes them."""
    notes = "🦀 \\\\ 'note' " * 200
    return f'Order {{↵ id: {number},↵ note: "{notes}",↵ }} 👩‍🚀🦀'


def euros(numbers):
    return {f"{number} EUR" for number in numbers}


# The first 40 characters of a note, in quotation marks.
SHORT_NOTES = {number: r'''"Order {\n id: N,\n note: \"🦀 \\\\ 'note"…'''.replace("N", str(number)) for number in (1, 2)}
FORTY = "forty_screens_are_up_to_date"
# The tests that open long runs, or many channels.
LONG = {f"page_of_{name}" for name in (FULL, FORTY, LAST_BUS)}


def screen_untold(number):
    """The fact of a screen that was not told."""
    return [f"`screen {number}` lost 2 of 5 values of `prices` (capacity 2)",
            f' call 157 prices.send("4 EUR") {FORTY} {{forty screens get a price}} overwrote "2 EUR", which screen {number} had not read',
            f' the panic not told {FORTY} {{the fourth screen is told}} its last receive: call {43 + number}, "1 EUR"', ' lost: "2 EUR", "3 EUR"']


# By the name of a test. What is lost is by receiver: how many values, and how many of them it learned of.
WANTED = {
    "no_price_is_missing": Wanted(
        {"no_price_is_missing", "ticker"}, ["prices"], {"0 1": "auditor · receiver 1"}, euros(range(101, 106)),
        [("ticker on prices: send 0 2 → sent 1", "101 EUR, not read by auditor · receiver 1", "a price is sent"),
         ("no_price_is_missing on prices: try-recv 1 → lagged 3", "lost 101 EUR, 102 EUR and 1 more", "the auditor is told")],
        [["`auditor` lost 3 of 5 values of `prices` (capacity 2)",
          ' call 3 prices.send("103 EUR") ticker {a price is sent} overwrote "101 EUR", which auditor had not read',
          " call 7 told: lagged 3 no_price_is_missing {the auditor is told} its last receive: none before", ' lost: "101 EUR", "102 EUR", "103 EUR"'],
         ["`prices` closed, and its receiver has not read that far",
          " call 6 dropped the last sender ticker {the ticker ends} in shop::publish::{{closure}}", " not that far: `auditor`"]],
        {"0 1": (3, 3)}, rest="and 1 channel closed"),
    "the_log_is_read": Wanted(
        {"the_log_is_read"}, ["jobs"], {"0 1": "log · receiver 1", "0 2": "idle · receiver 2"}, {f"job {number}" for number in range(1, 5)},
        [("the_log_is_read on jobs: send 0 2 → sent 2", "job 2, not read by", "a job is sent"),
         ("the_log_is_read on jobs: drop 1", "was never told that it lost 2: job 2, job 3", None)],
        [["`log` lost 2 of 4 values of `jobs` (capacity 1)",
          ' call 5 jobs.send("job 3") the_log_is_read {a job is sent} overwrote "job 2", which log had not read',
          ' call 7 dropped: never told the_log_is_read its last receive: call 3, "job 1"', ' lost: "job 2", "job 3"'],
         ["`idle` lost 3 of 4 values of `jobs` (capacity 1)",
          ' call 4 jobs.send("job 2") the_log_is_read {a job is sent} overwrote "job 1", which idle had not read',
          " the panic held, never read the_log_is_read {the jobs are counted}", ' lost: "job 1", "job 2", "job 3"']],
        {"0 1": (2, 0), "0 2": (3, 0)}, rest="and 1 more receiver lost 3 values"),
    "three_jobs_are_left": Wanted(
        {"three_jobs_are_left"}, ["jobs"], {"0 1": "slow · receiver 1"}, {f"job {number}" for number in range(1, 4)},
        [("three_jobs_are_left on jobs: send 0 1 → sent 1", "job 1, not read by slow · receiver 1", "a job is left"),
         ("three_jobs_are_left on jobs: drop 1", "after the test failed: it had lost 2, job 1, job 2", None)],
        [["`jobs` has one value left that `slow` has not received; two values before that were overwritten (capacity 1)",
          ' call 3 jobs.send("job 3") three_jobs_are_left {a job is left} the first that is left',
          " call 4 jobs.len() three_jobs_are_left {the length is asked} returned 1"],
         ["`slow` lost 2 of 3 values of `jobs` (capacity 1)",
          ' call 2 jobs.send("job 2") three_jobs_are_left {a job is left} overwrote "job 1", which slow had not read',
          " the panic held, never read three_jobs_are_left {the length is asked}", ' lost: "job 1", "job 2"']],
        {"0 1": (2, 0)}, rest="and 1 receiver lost 2 values"),
    "the_orders_are_whole": Wanted(
        {"the_orders_are_whole"}, ["metrics", "orders"], {"0 1": "held · receiver 1", "1 1": "desk · receiver 1"},
        {"order 71", "order 72", "order 73", "its 1st value", "its 15th value"},
        [("the_orders_are_whole on orders: send 0 2 → sent 1", "order 71, not read by desk · receiver 1", "an order is sent"),
         ("the_orders_are_whole on metrics: send 0 4 → sent 1", "its 1st value, not read by held · receiver 1", "a metric is sent"),
         ("the_orders_are_whole on orders: try-recv 1 → lagged 1", "lost order 71", "the desk is told")],
        [["`desk` lost 1 of 3 values of `orders` (capacity 2)",
          ' call 18 orders.send("order 73") the_orders_are_whole {an order is sent} overwrote "order 71", which desk had not read',
          " call 19 told: lagged 1 the_orders_are_whole {the desk is told} its last receive: none before", ' lost: "order 71"'],
         ["`held` lost 11 of 15 values of `metrics` (capacity 4)",
          " call 5 metrics.send(its 5th value) the_orders_are_whole {a metric is sent} overwrote its 1st value, which held had not read",
          " the panic held, never read the_orders_are_whole {the desk is told}", " lost: its 1st value, its 2nd value, its 3rd value, .. its 11th value"]],
        {"0 1": (11, 0), "1 1": (1, 1)}, rest="and 1 more receiver lost 11 values"),
    "each_state_is_seen": Wanted(
        {"each_state_is_seen", "screen"}, ["state"], {"0 1": "reader · receiver 1"}, {"loading!", "ready!", "busy!", "full!"},
        [("each_state_is_seen on state: send 0 2", "busy!", "a state is sent"),
         ("screen on state: borrow 1 → value 3", "full!", "the state is looked at")],
        [["`reader` never learned of 2 of 3 changes of `state`", ' call 3 state.send("full!") each_state_is_seen {a state is sent} the last change',
          ' call 4 state.borrow() screen {the state is looked at} its last look: "full!"']],
        nothing="no value was lost in 6 calls on 1 channel", besides=["not looked at: ready!, busy!"]),
    "the_sum_is_right": Wanted(
        {"the_sum_is_right"}, ["bus"], {"0 1": "reader · receiver 1"}, {"number 2"},
        [("the_sum_is_right on bus: send 0 0 → sent 1", "number 2", "a number is sent"),
         ("the_sum_is_right on bus: try-recv 1 → value 0", "number 2", "a number is received"),
         ("the_sum_is_right on bus: drop 0", "", None)],
        [], nothing="no value was lost in 4 calls on 1 channel"),
    HANGS: Wanted(
        {HANGS, "worker"}, ["state"], {"0 1": "reader · receiver 1"}, {"loading!", "busy!"},
        [(f"{HANGS} on state: send 0 1", "busy!", "the state is busy"), ("worker on state: wait_for 1 → value 1", "busy!", "the worker waits")],
        [["`state.wait_for` of worker waits: `state` wasn't changed since call 1",
          f' call 1 state.send("busy!") {HANGS} {{the state is busy}} the last change', " call 2 state.wait_for worker {the worker waits} waits",
          f" senders: sender 0 of {{the state is made}} (last used at call 1 by {HANGS})"]],
        waiting=["worker in `state.wait_for` since call 2, {the worker waits}"],
        besides=["state has busy! and 1 sender at the end"]),
    "the_second_task_gets_the_first_order": Wanted(
        {"the_second_task_gets_the_first_order", "runtime", "task 7", "reader", "till", "audit"}, ["orders"],
        {"0 1": "first · receiver 1", "0 2": "second · receiver 2"}, {"order 71", "order 72", "order 73"},
        [("task 7 on orders: send 0 2 → sent 2", "order 71, not read by", "a task sends"),
         ("till on orders: recv 1 → lagged 1", "lost order 71", "an order is received"),
         ("audit on orders: recv 2 → lagged 1", "lost order 71", "an order is received")],
        [["`second` lost 1 of 3 values of `orders` (capacity 2)",
          ' call 4 orders.send("order 73") task 7 {a task sends} overwrote "order 71", which second had not read',
          " call 8 told: lagged 1 audit {an order is received} its last receive: none before", ' lost: "order 71"'],
         ["`first` lost 1 of 3 values of `orders` (capacity 2)",
          ' call 4 orders.send("order 73") task 7 {a task sends} overwrote "order 71", which first had not read',
          " call 6 told: lagged 1 till {an order is received} its last receive: none before", ' lost: "order 71"',
          " late: it isn't polled by a task that is seen"],
         ["`orders` closed, and its receiver has not read that far",
          " call 5 dropped the last sender runtime {the runtime ends} in failing::the_second_task_gets_the_first_order::{{closure}}", " not that far: `second`"]],
        {"0 1": (1, 1), "0 2": (1, 1)}, rest="and 1 channel closed"),
    "both_clerks_get_the_first_order": Wanted(
        {"both_clerks_get_the_first_order", "shop", "till", "audit"}, ["orders"], {"0 1": "till · receiver 1", "0 2": "audit · receiver 2"},
        {"order 71", "order 72", "order 73"},
        [("shop on orders: send 0 2 → sent 2", "order 71, not read by", "the shop sends"),
         ("till on orders: recv 1 → lagged 1", "lost order 71", "the till is told"),
         ("audit on orders: recv 2 → lagged 1", "lost order 71", "the audit is told")],
        [["`audit` panicked at {the audit asserts}: assertion `left == right` failed, left: Err(Lagged(1)), right: Ok(71)",
          " a panic unwinds audit {the audit asserts}"],
         ["`audit` lost 1 of 3 values of `orders` (capacity 2)",
          ' call 4 orders.send("order 73") shop {the shop sends} overwrote "order 71", which audit had not read',
          " call 8 told: lagged 1 audit {the audit is told} its last receive: none before", ' lost: "order 71"',
          " late: shop sent 3 values in one poll ({the shop sends})<turn>"],
         ["`till` lost 1 of 3 values of `orders` (capacity 2)",
          ' call 4 orders.send("order 73") shop {the shop sends} overwrote "order 71", which till had not read',
          " call 6 told: lagged 1 till {the till is told} its last receive: none before", ' lost: "order 71"',
          " late: shop sent 3 values in one poll ({the shop sends})<turn>"]],
        {"0 1": (1, 1), "0 2": (1, 1)}, rest="and 1 more receiver lost 1 value"),
    "the_notes_are_whole": Wanted(
        {"the_notes_are_whole"}, ["👩‍🚀 orders 🦀"], {"0 1": '<b>desk</b> &amp; "co" · receiver 1'}, {note(1), note(2), note(3)},
        [("the_notes_are_whole on 👩‍🚀 orders 🦀: send 0 1 → sent 1", note(1), "a note is sent"),
         ("the_notes_are_whole on 👩‍🚀 orders 🦀: try-recv 1 → lagged 2", "lost Order {↵ id: 1", "the note is missing")],
        [[r'`<b>desk</b> &amp; "co"` lost 2 of 3 values of `👩\u{200d}🚀 orders 🦀` (capacity 1)',
          r" call 2 👩\u{200d}🚀 orders 🦀.send(" + SHORT_NOTES[2] + ") the_notes_are_whole {a note is sent} overwrote " + SHORT_NOTES[1]
          + ', which <b>desk</b> &amp; "co" had not read',
          " call 4 told: lagged 2 the_notes_are_whole {the note is missing} its last receive: none before",
          f" lost: {SHORT_NOTES[1]}, {SHORT_NOTES[2]}"]],
        {"0 1": (2, 2)}),
    # Entry 1 drops the first receiver, the next 40 make the screens. Then come a send and 40 receives, and after that a send and 36 receives each.
    FORTY: Wanted(
        {FORTY}, ["prices"], {"0 1": "receiver 1", **{f"0 {2 + number}": f"screen {number} · receiver {2 + number}" for number in range(40)}},
        euros(range(1, 6)),
        [(f"{FORTY} on prices: send 0 3 → sent 40", "2 EUR, not read by", "forty screens get a price"),
         (f"{FORTY} on prices: try-recv 5 → lagged 2", "lost 2 EUR, 3 EUR", "the fourth screen is told"),
         (f"{FORTY} on prices: drop 2", "after the test failed: it had lost 2, 2 EUR, 3 EUR", None)],
        [["`screen 3` lost 2 of 5 values of `prices` (capacity 2)",
          f' call 157 prices.send("4 EUR") {FORTY} {{forty screens get a price}} overwrote "2 EUR", which screen 3 had not read',
          f' call 231 told: lagged 2 {FORTY} {{the fourth screen is told}} its last receive: call 46, "1 EUR"', ' lost: "2 EUR", "3 EUR"'],
         *map(screen_untold, range(3))],
        {f"0 {2 + number}": (2, 2 if number == 3 else 0) for number in range(4)}, rest="and 3 more receivers lost 6 values"),
    FULL: Wanted(
        {FULL}, ["ticks"], {"0 2": "reader · receiver 1"}, set(), [],
        # It makes 1,080,007 calls, of which the last 555,719 are kept: all but the first chunk. Four calls lead to them.
        [["`reader` lost 2 of at most 540004 values of `ticks` (capacity 2)",
          " call 555719 ticks.send(its 540003rd value) the_last_tick_arrives {four ticks are sent} overwrote its 540001st value, which reader had not read",
          " call 555721 told: lagged 2 the_last_tick_arrives {the last tick is received} its last receive: call 555716, its 540000th value",
          " lost: its 540001st value, its 540002nd value"]],
        {"0 2": (2, 2)}, unknown=["524288 calls came before the window"]),
    LAST_BUS: Wanted(
        {LAST_BUS}, [f"channel {number} of {{all but one are created}}" for number in range(64)], {f"{number} 1": "receiver 1" for number in range(64)}, set(), [], [],
        unknown=["1 channel was not recorded, since 64 were alive"], nothing="nothing was found in 128 calls on 64 channels"),
}


@functools.cache
def make_package():
    """Writes the package into the tests' output folder, once. What was built of it before stays."""
    for name in ("src/lib.rs", "src/bin/why.rs", "tests/failing.rs", "tests/first_look.rs", "tests/orders.rs"):
        path = os.path.join(PACKAGE, name)
        os.makedirs(os.path.dirname(path), exist_ok=True)
        shutil.copyfile(os.path.join(SOURCES, name), path)
    with open(os.path.join(PACKAGE, "Cargo.toml"), "w", encoding="utf-8") as file:
        file.write(MANIFEST.format(path=json.dumps(os.path.join(native.TOP, "rust"))))
    # Debian's sources of tokio, as in rust/tokio.
    shutil.copytree(os.path.join(native.TOP, "rust", "tokio", ".cargo"), os.path.join(PACKAGE, ".cargo"), dirs_exist_ok=True)
    target = os.path.join(PACKAGE, "target")
    shutil.rmtree(os.path.join(target, "yovanelum"), ignore_errors=True)
    # With the environment of the tests, so that it is what they would compile.
    subprocess.run([os.path.join(native.TOP, "tests", "seed"), target], env={**environment(), "YOVANELUM_OUT": os.path.dirname(native.PICTURES)}, check=True)


def environment():
    """That of a user: without the variables of this crate, and with cargo's own folder for what it builds, and its debug information."""
    ours = {"CARGO_TARGET_DIR", "CARGO_PROFILE_DEV_DEBUG"}
    kept = {key: value for key, value in os.environ.items() if key not in ours and not key.startswith("YOVANELUM_")}
    return {**kept, "RUST_BACKTRACE": "0"}


def said_by_failing():
    """What cargo says of all tests but the one that hangs."""
    done = subprocess.run([*CARGO, "--", "--skip", HANGS], cwd=PACKAGE, env=environment(), stdout=subprocess.PIPE, stderr=subprocess.STDOUT,
                          text=True, timeout=PATIENCE)
    failed = set(re.findall(r"^test (\S+) \.\.\. FAILED$", done.stdout, re.M))
    assert failed == set(WANTED) - {HANGS}, done.stdout
    return done.stdout


def said_by_hanging(command=(*CARGO, HANGS)):
    """What the watchdog says of a test that hangs, up to its address. Then the test is ended, with all that was started for it."""
    running = subprocess.Popen(command, cwd=PACKAGE, env=environment(), stdout=subprocess.DEVNULL, stderr=subprocess.PIPE, text=True,
                               start_new_session=True)
    end = functools.partial(os.killpg, running.pid, signal.SIGKILL)
    timer = threading.Timer(PATIENCE, end)
    timer.start()
    lines = []
    for line in running.stderr:
        lines.append(line)
        if line.startswith("look: "):
            break
    timer.cancel()
    end()
    running.wait()
    running.stderr.close()
    return "".join(lines)


@functools.cache
def said():
    """What the tests print. They are run once."""
    make_package()
    return said_by_failing(), said_by_hanging()


@functools.cache
def addresses():
    """The page of each failing test, and the place in its address."""
    found = LOOK.findall("".join(said()))
    pages = {name: [(path, int(place)) for path, place in found if name in os.path.basename(path)] for name in WANTED}
    assert all(len(of) == 1 for of in pages.values()) and len(found) == len(pages), said()
    return {name: page for name, [page] in pages.items()}


def report_of(name):
    """The lines of a test's report, up to the page's address. The watchdog of a test that hangs prints none."""
    _, block = said()[0].split(f"---- {name} stdout ----\n")
    lines = block.split("\nlook: ")[0].split("\n")
    first = next(i for i, line in enumerate(lines) if re.match("failed: |error: |yovanelum: (?:no|dump of)", line))
    return lines[first:]


def beside(page, end):
    return os.path.splitext(page)[0] + end


def command(*words):
    """What the command `yovanelum` prints."""
    program = os.path.join(PACKAGE, "target", "debug", "why")
    return subprocess.run([program, *words], env={**environment(), "PAGE": native.PAGE}, stdout=subprocess.PIPE, check=True).stdout.decode()


def why(page, *words):
    """What it says of the journal beside a page."""
    return command("why", beside(page, ".journal"), *words)


def line_of(comment, names=("src/lib.rs", "tests/failing.rs")):
    """The place in the package's sources whose line ends with this comment."""
    found = []
    for name in names:
        with open(os.path.join(SOURCES, name), encoding="utf-8") as file:
            found += [f"{name}:{number}" for number, line in enumerate(file, 1) if line.endswith(f" // {comment}\n")]
    assert len(found) == 1, (comment, found)
    return found[0]


def spaced(line):
    return re.sub(" +", " ", line)


def untimed(line):
    """A line of a fact with single spaces, without the time of its call, which only a window has, and how long before a loss it was."""
    return re.sub(r"; at [\d:.]+ UTC, .*|, \d+ \w+ before the loss", "", spaced(line))


def placed(line):
    """A line with the places in the sources in place of the comments in braces."""
    return re.sub(r"(?<!\{)\{([a-z ]+)\}", lambda comment: line_of(comment[1]), line)


def turn_of(names):
    """How a line of a burst ends. Which of its threads polls a task is the runtime's choice: where one polled all that were seen, nobody had a turn."""
    polls = [poll for task in names.get("tasks_seen", {"tasks": []})["tasks"] for poll in task["polls"]]
    return ", which gives nobody a turn" if len({thread for *_, thread in (poll[:5] for poll in polls)}) == 1 else ""


def lines_of(account):
    """The lines in which an account is printed, without those of rustc's form that have places alone."""
    told = account["facts"][:account["rest"]["after"]]
    lines = [f"yovanelum: {account['window']['text']}"] if "window" in account else []
    lines += [f"yovanelum: not all is known: {'; '.join(account['unknown'])}"] if account["unknown"] else []
    lines += [f"failed: {account['failed']['text']}"] if account["failed"] else []
    for level, fact in zip(["error", "warning", "warning"], told):
        is_usual = fact["order"] >= 12 and fact["kind"] != "loss" or account["failed"] and fact["kind"] == "wait"
        level = "note" if fact["order"] >= 15 else "warning" if is_usual else level
        lines += [f"{level}: {fact['text'][0]}", *fact["text"][1:]]
    lines += [account["rest"]["text"]] if account["rest"]["text"] else []
    lines += [f"yovanelum: {account['nothing']}"] if account["nothing"] else []
    # A call of which a fact tells isn't listed again.
    told = [fact["places"][-1]["place"] for fact in told if fact["kind"] == "wait"]
    waiting = [it["text"] for it in account["waiting"] if it["since"] not in told]
    return lines + ([f"still waiting: {'; '.join(waiting)}"] if waiting else [])


def check_printed(lines, account):
    """These lines are those of the account, and begin each fact as rustc does: with the places in the sources that the fact has."""
    assert [line for line in lines if not re.match("note: |  --> ", line)] == lines_of(account), lines
    sights = [re.fullmatch(r"  --> (.*):(\d+):(\d+)", line) for line in lines if line.startswith("  --> ")]
    sights = [[sight[1], int(sight[2]), int(sight[3])] for sight in sights]
    known = [place["location"] for fact in account["facts"] for place in fact["places"] if place["location"]]
    assert all(sight in known for sight in sights) and bool(sights) == bool(known), (sights, known)


def check_account(name, page):
    """Report, `why`, `why --json` and names have one account, which is what the source says."""
    wanted = WANTED[name]
    account = json.loads(why(page, "--json"))
    with open(beside(page, ".names"), encoding="utf-8") as file:
        names = json.load(file)
    assert names["account"] == account
    check_printed(why(page).split("\nlook: ")[0].split("\n"), account)
    if name != HANGS:
        check_printed(report_of(name), account)
    found = [[untimed(line) for line in fact["text"]] for fact in account["facts"]]
    assert found == [[placed(line).replace("<turn>", turn_of(names)) for line in fact] for fact in wanted.account], found
    rest = (account["unknown"], account["rest"]["text"], account["nothing"], [it["text"] for it in account["waiting"]])
    assert rest == (wanted.unknown, wanted.rest, wanted.nothing, [placed(line) for line in wanted.waiting]), rest
    return account


def shown(line):
    """A line of the account as the page shows it: without the backquotes around names, and with counts grouped, also of which value it was. A call's number in
    snapshots isn't one."""
    line = re.sub(r"`([^`]+)`", r"\1", line)
    parts = re.split(r'("(?:[^"\\]|\\.)*")', line)
    parts[::2] = [re.sub(r"\b\d{4,}(?=(?:st|nd|rd|th)?\b)(?![:-]|(?: to \d+)? in snapshots)", lambda count: f"{int(count[0]):,}", part) for part in parts[::2]]
    return "".join(parts)


def gaps(line):
    """A line with one space between its columns: a number that grows by its groups takes of the gap behind it. Texts of values are left as they are."""
    parts = re.split(r'("(?:[^"\\]|\\.)*")', line)
    parts[::2] = map(spaced, parts[::2])
    return "".join(parts)


# What the page shows of the account, and whether it is open.
ANSWER = """(() => {
    const lines = part => [...part.querySelectorAll('.line')].map(line => line.textContent);
    return {
        isOpen: document.getElementById('answer').open && !document.getElementById('answer').hidden,
        facts: [...document.querySelectorAll('#answer .fact')].map(lines), waits: [...document.querySelectorAll('#answer .waits')].flatMap(lines),
        others: [...document.querySelectorAll('#answer-box > p')].map(it => it.textContent),
        rest: document.querySelector('#answer .rest summary')?.textContent ?? null, folded: document.querySelectorAll('#answer .rest .fact').length,
    };
})()"""


def check_answer_text(tab, account):
    """The page shows the account, open."""
    answer = tab.run(ANSWER)
    answer["facts"] = [[gaps(line) for line in fact] for fact in answer["facts"]]
    window = [account["window"]["text"]] if "window" in account else []
    unknown = window + [f"not all is known: {'; '.join(account['unknown'])}"] if account["unknown"] else []
    others = unknown + ([account["nothing"]] if account["nothing"] else [])
    wanted = {
        "isOpen": True, "facts": [[gaps(shown(line)) for line in fact["text"]] for fact in account["facts"]],
        "waits": [shown(f"  {it['text']}") for it in account["waiting"]], "others": [shown(line) for line in others],
        "rest": account["rest"]["text"] and shown(account["rest"]["text"]),
        "folded": len(account["facts"]) - account["rest"]["after"],
    }
    assert answer == wanted, {key: (answer[key], wanted[key]) for key in wanted if answer[key] != wanted[key]}


# The lines of the answer from top to bottom, without what is folded, what the page adds to a fact, and how the test ended in full.
ANSWER_LINES = """[...document.querySelectorAll('#answer-box :is(.line, p, .rest > summary, .waits h3)')].filter(line => !line.closest('.rest .fact, .ends'))
    .map(line => line.textContent)"""
# The head of the page: the words in it, each with single spaces.
HEAD = "document.getElementById('failed').innerText.replace(/\\s+/g, ' ').trim()"


def head_of(failed):
    """The head of the page for a failure as the account has it: the name, where it failed, the panic's text, and the call before it."""
    text, _, call = failed["text"].partition(f"; call {failed['call']} was ") if failed["call"] is not None else (failed["text"], "", "")
    assert text.startswith(f"{failed['name']} at {failed['location'][0]}:{failed['location'][1]}: "), failed
    first, *sides = re.split(r"\n (?= left: |right: )", failed["message"])
    said = [f"{failed['name']} failed at {failed['location'][0]}:{failed['location'][1]}", shown(first)] + ([f"call {failed['call']:,} was {call}"] if call else [])
    return " ".join(" ".join([*said, *(side.replace(": ", " ", 1) for side in sides)]).split())


def hang_of(name, account):
    """The head of the page for a test that hangs: its name, and which calls still wait, in the words of the report."""
    return " ".join([f"{name} hangs", *(shown(f"still waiting: {it['text']}") for it in account["waiting"][:3])])


def report_lines(printed):
    """The lines of a printed report without what a terminal needs: the levels, the form of rustc, and calls that wait on one line."""
    for line in printed:
        if re.match("note: (?:call|the) |  --> ", line):
            continue
        if line.startswith("still waiting: "):
            yield "still waiting:"
            yield from (f"  {it}" for it in line.removeprefix("still waiting: ").split("; "))
        else:
            yield re.sub("^(?:error|warning|note|yovanelum): ", "", line)


def check_order(tab, name, page):
    """From top to bottom the page has the lines of what the test printed, or of what `why` prints where a watchdog told less."""
    printed = why(page).split("\nlook: ")[0].split("\n") if name == HANGS else report_of(name)
    there, wanted = tab.run(ANSWER_LINES), [shown(line) for line in report_lines(printed) if not line.startswith("failed: ")]
    if any(line.startswith("  ") and " since " in line for line in there) and "still waiting:" not in wanted:
        # A call of which a fact tells isn't listed again in print.
        there = there[:there.index("still waiting:")]
    assert list(map(gaps, there)) == list(map(gaps, wanted)), (there, wanted)
    account = json.loads(why(page, "--json"))
    head = head_of(account["failed"]) if account["failed"] else hang_of(name, account) if name == HANGS else ""
    assert tab.run(HEAD) == head, (tab.run(HEAD), head)


def check_answer(tab, account):
    """The page shows the account, and each step of it leads to its place."""
    check_answer_text(tab, account)
    tab.run("document.querySelectorAll('#answer details').forEach(it => { it.open = true; })")
    places = [place for fact in account["facts"] for place in fact["places"]]
    for index, place in enumerate(places):
        tab.run(f"document.querySelectorAll('#answer .fact [data-place]')[{index}].click()")
        opening.settle(tab, place["place"])
        # A panic, a call in its first poll, and the end of what has a sender stand beside a step of the journal: its sentence has the step's own place.
        is_beside = place["role"] in ("failure", "panic", "begin", "close")
        source = place["location"] and not is_beside and f" at {place['location'][0]}:{place['location'][1]}"
        assert not source or source in tab.run("document.getElementById('sentence').textContent"), (place, tab.text("sentence"))


# The rows of the table by channel and receiver: the name, and the numbers. Only rows in sight are made, so it is scrolled through.
ROWS = """(async () => {
    const box = document.getElementById('table-box'), found = {};
    for (let top = 0; ; top += box.clientHeight) {
        box.scrollTop = top;
        await new Promise(done => requestAnimationFrame(() => requestAnimationFrame(done)));
        for (const row of document.querySelectorAll('#table-rows tr[data-receiver]')) found[row.dataset.receiver] = [row.children[1].textContent,
            ...[...row.querySelectorAll('td[class]')].map(cell => cell.textContent === '–' ? null : Number(cell.textContent.replaceAll(',', '')))];
        if (top + box.clientHeight >= box.scrollHeight) return found;
    }
})()"""

CHANNELS = """[...document.querySelectorAll('#state .channel')].sort((a, b) => a.dataset.channel - b.dataset.channel)
    .map(channel => channel.querySelector('h3 bdi').textContent)"""
ACTORS = "[...document.querySelectorAll('#legend li bdi')].map(name => name.textContent)"
# The texts of sentence and call in whole, without the codes of actors.
HERE = """[...['sentence', 'whole-call'].map(name => {
    const part = document.getElementById(name).cloneNode(true);
    part.querySelectorAll('.badge').forEach(badge => { badge.nextSibling.remove(); badge.remove(); });
    return part.textContent;
}), [...document.querySelectorAll('#state .box')].map(box => box.title)]"""


def walked(tab):
    """The sentence and the call in whole at each place, and the texts of all values in the state."""
    tab.key("i")
    tab.key("Home")
    calls, texts = [], set()
    for place in range(tab.run("Number(document.getElementById('slider').max)") + 1):
        opening.settle(tab, place)
        *call, shown = tab.run(HERE)
        calls.append(call)
        texts |= set(shown)
        tab.key("ArrowRight")
    return calls, texts


def check_calls(wanted, calls):
    """Each wanted call is in a sentence, with the place in the sources. That place is in the call in whole, too."""
    for words, more, comment in wanted.calls:
        there = [(sentence, whole) for sentence, whole in calls if words in sentence and more in sentence]
        assert there, (words, more, [sentence for sentence, _ in calls])
        place = comment and line_of(comment)
        for sentence, whole in there:
            assert (f" at {place}" in sentence and f"called at {place}" in whole) if place else " at " not in sentence, (place, sentence, whole)


def check_losses(tab, wanted, losses, lead):
    """The table has what the command says and what the source says, and L goes to where the losses of the command begin and end. `lead` entries lead to
    the calls, if the first ones aren't there."""
    tab.key("t")
    rows = tab.run(ROWS)
    tab.key("t")
    assert {key: name for key, (name, *_) in rows.items()}.keys() == wanted.receivers.keys(), rows
    assert all(rows[key][0].endswith(name) for key, name in wanted.receivers.items()), rows
    by_receiver = {}
    for loss in losses:
        by_receiver.setdefault(f"{loss['channel']} {loss['receiver']}", []).append(loss)
    told = {key: sum(it["lost"] for it in of if it["end"] == "told") for key, of in by_receiver.items()}
    lost = {key: sum(it["lost"] for it in of) for key, of in by_receiver.items()}
    assert {key: (lost[key], told[key]) for key in lost} == wanted.lost, losses
    shown = {key: row[2:5] + row[6:] for key, row in rows.items() if row[3]}
    assert shown == {key: [told[key], lost[key], max(it["lost"] for it in of), lost[key] - told[key]] for key, of in by_receiver.items()}, rows
    tab.key("Home")
    opening.settle(tab, lead)
    for place in sorted({it["from"] for it in losses} | {it["to"] for it in losses if it["end"] != "open"}):
        tab.key("l")
        opening.settle(tab, place)
    tab.key("l")
    tab.wait("document.getElementById('found').textContent === 'no loss begins or ends after it'")


def check_page(tab, name):
    """The page that is open shows names, texts, places in the sources and losses of this test."""
    wanted = WANTED[name]
    assert tab.text("notice") == "", tab.text("notice")
    # A fact may say why a receiver was late: that its task isn't seen.
    shown = "\n".join(line for line in tab.run("document.body.innerText").split("\n") if not line.startswith("  late: "))
    assert "isn't" not in shown, shown
    besides = tab.run("[...document.querySelectorAll('#answer .then')].map(it => it.textContent.trim())")
    assert besides == wanted.besides, besides
    actors = tab.run(ACTORS)
    assert {actor.split(",")[0] for actor in actors} == wanted.actors, actors
    assert tab.run(CHANNELS) == [placed(channel) for channel in wanted.channels], tab.run(CHANNELS)
    if name == FULL:
        return
    calls, texts = walked(tab)
    check_calls(wanted, calls)
    assert wanted.texts <= texts, texts


def page_of_test(name):
    def test(tab, folder, journals):
        page, place = addresses()[name]
        account = check_account(name, page)
        opening.load(tab, page, place)
        check_order(tab, name, page)
        check_answer(tab, account)
        check_page(tab, name)
        check_losses(tab, WANTED[name], account["losses"], account.get("window", {"lead": 0})["lead"])
        if name == HANGS:
            waits = f"1 call waits: worker waits in wait_for of reader · receiver 1 on state since call 2, at {line_of('the worker waits')}"
            assert tab.text("facts").endswith(waits), tab.text("facts")
    test.__name__ = f"page_of_{name}"
    return test


def keys_of_a_later_writer(tab, folder, journals):
    """Keys that the page doesn't know or use, such as those of a later writer, change nothing."""
    name = "no_price_is_missing"
    page, place = addresses()[name]
    with open(beside(page, ".names"), encoding="utf-8") as file:
        names = json.load(file)
    later = {"panics": {"file": "a.rs", "line": [1, None]}, "made_by": 7, "__proto__": {"actors": 1}, "constructor": "x"}
    names["account"] = {"version": 2, "facts": 7}
    opening.put(folder, "later.names", json.dumps({**names, **later}).encode())
    with open(beside(page, ".journal"), "rb") as file:
        opening.load(tab, opening.page_of(folder, "later.journal", file.read()), place)
    check_page(tab, name)


def account_of_an_opened_journal(tab, folder, journals):
    """`yovanelum open` puts the account into the page of a journal whose names have none, and of one without names. Other keys stay in the page."""
    page, place = addresses()["no_price_is_missing"]
    with open(beside(page, ".names"), encoding="utf-8") as file:
        names = json.load(file)
    del names["account"]
    opening.put(folder, "old.names", json.dumps({**names, "later": [7]}).encode())
    for name in ("old", "bare"):
        with open(beside(page, ".journal"), "rb") as file:
            journal = opening.put(folder, f"{name}.journal", file.read())
        opened = command("open", journal).strip()
        account = json.loads(command("why", journal, "--json"))
        opening.load(tab, opened, place)
        check_answer(tab, account)
        embedded = tab.run("atob(document.getElementById('run').textContent.split('\\n')[2])")
        assert ('"later": [7]' in embedded) == (name == "old"), embedded


def ends_of_tests(tab, folder, journals):
    """Below what was found is how the test ended besides the failure, which is the head of the page: each other panic with who panicked, where, and
    what it says, as the file of names has it."""
    count = 0
    for name, (page, _) in addresses().items():
        with open(beside(page, ".names"), encoding="utf-8") as file:
            names = json.load(file)
        if name == "the_last_tick_arrives":
            continue
        opening.load_first(tab, page)
        lines = tab.run("[...document.querySelectorAll('#answer .ends .line')].map(line => line.textContent)")
        failed = names["account"]["failed"]
        head = head_of(failed) if failed else hang_of(name, names["account"]) if name == HANGS else ""
        assert tab.run(HEAD) == head and tab.run("document.getElementById('failed').hidden") == (head == ""), (name, tab.run(HEAD))
        is_failure = lambda it: failed and it["text"] == failed["message"] and names["locations"][it["location"]] == failed["location"]
        count += sum(map(bool, map(is_failure, names.get("panics", []))))
        panics = [it for it in names.get("panics", []) if not is_failure(it)]
        assert len(lines) == len(panics) + ("returned" in names), (name, lines)
        for line, panic in zip(lines, panics):
            file_, number, _ = names["locations"][panic["location"]]
            who = "" if panic["actor"] is None else f" of {names['actors'][str(panic['actor'])]}"
            assert line.startswith("  panic ") and f"{who} at {file_}:{number}" in line and shown(panic["text"].split("\n")[0])[:100] in line, (name, line, panic)
            count += 1
    assert count > 5, count


# What someone asks who has never seen the page, of six runs that failed for six reasons, and the words that answer it.
QUESTIONS = {
    "no_price_is_missing": ("Which prices did the auditor never get, whose send overwrote the first of them, and where was it told?", [
        'lost: "101 EUR", "102 EUR", "103 EUR"', 'call 3 prices.send("103 EUR") ticker {a price is sent}', "call 7 told: lagged 3", "{the auditor is told}"]),
    "the_log_is_read": ("Why did the log read fewer jobs than were sent, although it was never told?", [
        'lost: "job 2", "job 3"', 'call 5 jobs.send("job 3")', "{a job is sent}", "call 7 dropped: never told"]),
    "three_jobs_are_left": ("Why is one job left, where three were sent and nobody received any?", [
        "two values before that were overwritten (capacity 1)", 'call 3 jobs.send("job 3")', "{a job is left}", "call 4 jobs.len()",
        "{the length is asked}", "returned 1"]),
    "each_state_is_seen": ("Which states did the screen never look at, and what did it see in their place?", [
        "not looked at: ready!, busy!", 'its last look: "full!"', "call 4 state.borrow() screen {the state is looked at}"]),
    "the_sum_is_right": ("Was a number lost on the bus, or is it the test that is wrong?", [
        "no value was lost in 4 calls", "the_sum_is_right failed at tests/failing.rs", "left 2", "right 3"]),
    HANGS: ("Who waits, for what and since when, and why does it not end?", [
        "worker in state.wait_for since call 2, {the worker waits}", "state has busy! and 1 sender at the end"]),
}

# The texts of the answer that are in sight.
IN_SIGHT = """[...document.querySelectorAll('#failed :is(h2, p, dl div), #answer :is(.line, .then, p)')].filter(line => {
    const box = line.getBoundingClientRect(), outer = ['#failed, #answer', '#losses'].map(it => line.closest(it).getBoundingClientRect().bottom + 1);
    return line.checkVisibility() && box.height > 0 && box.top >= 0 && box.bottom <= Math.min(innerHeight, ...outer);
}).map(line => (line.innerText ?? line.textContent).replace(/\\s+/g, ' ').trim()).join(' ')"""


def answers_in_sight(tab, folder, journals):
    """Each of six questions is answered by what is in sight when the page opens, without a click, on a desk and on a phone, in light and dark."""
    for name, (question, words) in QUESTIONS.items():
        page, place = addresses()[name]
        for width, height in ((1440, 920), (390, 844)):
            tab.resize(width, height)
            opening.load(tab, page, place)
            for scheme in ("light", "dark"):
                tab.prefer(scheme)
                said = tab.run(IN_SIGHT)
                missing = [word for word in words if placed(word) not in said]
                assert not missing, (question, width, missing, said)
    tab.prefer("light")
    tab.resize(1440, 920)


TESTS = [*map(page_of_test, WANTED), answers_in_sight, ends_of_tests, keys_of_a_later_writer, account_of_an_opened_journal]

"""How long opening and stepping take. The figures are printed, and have to be within what is promised: by the clock, as far as the machine did nothing else
meanwhile, and in any case by the time that processors took for the page, which a busy machine changes less."""
import json
import os
import typing
import zlib

import native
import opening
import real_runs
import runs
import search
from browser import Browser, Tab

MANY = 30
# How often is tried what takes longer than it may: other work may slow down one of them.
TRIES = 5

# For the number of calls of a run: the seconds that opening it may take on an idle machine, and a step in it.
PROMISED = {63: (0.3, 0.03), 10_000: (0.3, 0.03), 100_000: (0.6, 0.04)}

# The number of calls of a long run, and the seconds until its first calls are shown.
LONG, FIRST_PAINT = 1_000_000, 2

# The factor by which all these may be exceeded by the clock on a machine that does nothing else, which may be a slower one than ours; and the share of the
# machine from which on that counts as nothing else.
MARGIN = 2
IDLE = 0.8

# By the channels, actors and calls of a pool, the seconds of processors that the tab may take until its first picture, from there until what is
# found in it is shown, for a jump to a place whose states aren't loaded, for the answer to a stop, and for each search with its jump. A machine that is
# slow or busy takes up to three times as long.
JUMP_AND_STOP = {"cold jump": 0.1, "stop": 0.1}
POOLS = {
    (64, 64, 100_000): {"first picture": 0.5, "findings": 1, **JUMP_AND_STOP},
    (16, 16, 1_000_000): {"first picture": 1, "findings": 3, **JUMP_AND_STOP, "word": 0.3, "number": 0.3, "text": 0.3},
}
PROCESSOR_MARGIN = 3

# What is searched for: a word that most calls have, a number that none has, and a part of every third text of a value.
SEARCHES = {"word": "try-recv", "number": "7777777", "text": "thumbnail"}
IS_SHOWN = "Number(document.getElementById('state').dataset.place) === document.getElementById('slider').valueAsNumber"

# How far into a pool its jump leads, and how many megabytes the tab's process may have had after all searches.
JUMP, MOST_MEGABYTES = 0.77, 440

# How many times as many bytes as a long journal, packed and in base64, its page may have, with the names and all else.
MOST_OF_PACKED = 1.3

# When the state at the first place is shown.
WATCH = """new MutationObserver((_, observer) => {
    window.shownAt = performance.now();
    observer.disconnect();
}).observe(document, { subtree: true, attributes: true, attributeFilter: ['data-place'] })"""

STEPS = f"""(async () => {{
    const state = document.getElementById('state'), times = [];
    for (let i = 0; i < {MANY}; i++) {{
        const wanted = String(Number(state.dataset.place) + 1), start = performance.now();
        document.dispatchEvent(new KeyboardEvent('keydown', {{ key: 'ArrowRight' }}));
        while (state.dataset.place !== wanted) await new Promise(done => setTimeout(done));
        times.push(performance.now() - start);
    }}
    return times;
}})()"""


class Took(typing.NamedTuple):
    """What something took: seconds of the clock, and of processors in the tab's process. And the share of the machine that had no other work meanwhile."""
    clock: float
    processors: float
    idle: float


def told_of(process):
    """What the system says of a process behind its name, from its state on."""
    with open(f"/proc/{process}/stat", encoding="utf-8") as stat:
        return stat.read().rsplit(")", 1)[1].split()


def worked_for(browser):
    """How long processors have worked for the processes of a browser so far, in ticks."""
    ticks = 0
    for name in filter(str.isdigit, os.listdir("/proc")):
        try:
            if descends(int(name), browser.process.pid):
                ticks += sum(map(int, told_of(name)[11:13]))
        except OSError:
            continue
    return ticks


def free_and_all(browser):
    """How long the processors have had nothing to do so far, or worked for this browser, and all of their time, in ticks."""
    with open("/proc/stat", encoding="ascii") as file:
        times = [int(it) for it in file.readline().split()[1:]]
    return times[3] + times[4] + worked_for(browser), sum(times)


def measured(tab, act):
    """What something takes that returns its seconds by the clock."""
    free, all_of_it = free_and_all(tab.browser)
    since = processor_seconds(tab)
    clock = act()
    processors = processor_seconds(tab) - since
    free_then, all_then = free_and_all(tab.browser)
    return Took(clock, processors, (free_then - free) / max(1, all_then - all_of_it))


def least_of(tries):
    """The least of several tries: by the clock of those while the machine had no other work, if there are any."""
    undisturbed = [it.clock for it in tries if it.idle >= IDLE]
    return Took(min(undisturbed or [it.clock for it in tries]), min(it.processors for it in tries), max(it.idle for it in tries))


def is_within(took, most):
    return took.processors < PROCESSOR_MARGIN * most and (took.idle < IDLE or took.clock < MARGIN * most)


def least(tab, act, most):
    """What something takes that returns its seconds by the clock. It is tried again while it takes more than it may."""
    tries = [measured(tab, act)]
    while not is_within(least_of(tries), most) and len(tries) < TRIES:
        tries.append(measured(tab, act))
    return least_of(tries)


def opened(tab, path, most):
    """What it takes until the state at the first place is shown."""
    def act():
        tab.load(path, 0)
        tab.wait("window.shownAt")
        return tab.run("window.shownAt") / 1000
    return least(tab, act, most)


def processor_seconds(tab):
    """What the tab's process has taken of processors so far. The browser has pages of its own, which are others'."""
    return next(it["value"] for it in tab.call("Performance.getMetrics")["metrics"] if it["name"] == "ProcessTime")


def descends(process, ancestor):
    """Whether a process was started by another, or by one that this has started."""
    while process > 1 and process != ancestor:
        process = int(told_of(process)[1])
    return process == ancestor


def most_megabytes(browser):
    """The most that a process of a page of this browser has had of memory."""
    most = 0
    for name in filter(str.isdigit, os.listdir("/proc")):
        try:
            with open(f"/proc/{name}/cmdline", "rb") as words, open(f"/proc/{name}/status", encoding="utf-8") as status:
                if b"--type=renderer" in words.read() and descends(int(name), browser.process.pid):
                    most = max([most, *(int(line.split()[1]) >> 10 for line in status if line.startswith("VmHWM"))])
        except OSError:
            continue
    return most


def seek(tab, text):
    """Searches for a text, and waits until what was found is shown."""
    tab.run("document.getElementById('found').textContent = ''")
    search.seek(tab, text)
    tab.wait(f"/^(hit|no call) /.test({search.HIT}) && {IS_SHOWN}")


def pool(tab, folder, size):
    """What a pool with a text for each value takes of processors, and of memory, and how many times as many bytes its page has as its packed journal."""
    tab.call("Page.addScriptToEvaluateOnNewDocument", source=WATCH)
    tab.call("Performance.enable")
    journal, names = real_runs.pool_of(*size)
    opening.put(folder, "speed_pool.names", names)
    path = opening.page_of(folder, "speed_pool.journal", journal)
    packed = 4 / 3 * len(zlib.compress(journal))
    jump = int(JUMP * size[2])
    waits = {
        "first picture": lambda: (tab.load(path), tab.wait("window.shownAt")),
        "findings": lambda: (tab.wait("document.getElementById('walk').getAttribute('aria-busy') === null"), opening.settle(tab)),
        "strip": lambda: tab.run("ttd.ask('')"),
        "cold jump": lambda: (tab.run(f"location.hash = '#call={jump}'"), opening.settle(tab, jump)),
        "stop": lambda: tab.run("ttd.ask('start\\nrforward reply lagged\\n')"),
        **{name: lambda text=text: seek(tab, text) for name, text in SEARCHES.items()},
    }
    tab.load(native.PAGE)
    took, since = {}, processor_seconds(tab)
    for name, wait in waits.items():
        wait()
        until = processor_seconds(tab)
        took[name], since = until - since, until
    megabytes = most_megabytes(tab.browser)
    print(f"  {size[2]:,} calls on {size[0]} channels, seconds of processors: " + ", ".join(f"{name} {taken:.2f}" for name, taken in took.items())
          + f"; {megabytes} MB; the file {os.path.getsize(path) / 1e6:.1f} MB, of the packed journal {os.path.getsize(path) / packed:.2f}", flush=True)
    return took, megabytes, os.path.getsize(path) / packed


def check_pool(tab, folder, size, promised):
    """What a pool takes is within what it may: the least of some tries, each in a browser of its own, since a process that has had another run has its memory
    too."""
    tries = []
    while len(tries) < TRIES and not (tries and is_pool_within(tries, promised)):
        browser = Browser(tab.browser.program)
        try:
            tries.append(pool(Tab(browser), folder, size))
        finally:
            browser.close()
    assert is_pool_within(tries, promised), "takes more of processors or of memory than it may"
    assert size[2] < LONG or tries[0][2] <= MOST_OF_PACKED, "the file has more bytes than it may"


def is_pool_within(tries, promised):
    of_processors = all(min(took[name] for took, _, _ in tries) < PROCESSOR_MARGIN * most for name, most in promised.items())
    return of_processors and min(megabytes for _, megabytes, _ in tries) <= MOST_MEGABYTES


# How many bytes of a script's memory a call may take for its texts and its place in the sources, on top of a run without them.
NAMED_CALLS, MOST_OF_A_CALL = 60_000, 6


def memory_of_scripts(tab):
    tab.call("HeapProfiler.collectGarbage")
    return next(it["value"] for it in tab.call("Performance.getMetrics")["metrics"] if it["name"] == "JSHeapUsedSize")


def names_take_little(tab, folder, journals):
    """The texts of a run's values and the places of its calls stay in the bytes of their file, however many there are, and are shown and found."""
    journal, text = real_runs.pool_of(16, 16, NAMED_CALLS)
    names, calls = json.loads(text), [line.split() for line in journal.decode().splitlines() if line[0].isdigit()]
    names["locations"] = [["src/pool.rs", line, 9] for line in range(300, 400)]
    names["calls"] = {str(channel): [place % 100 for place in range(sum(call[2] == str(channel) for call in calls))] for channel in range(16)}
    opening.load(tab, opening.page_of(folder, "plain.journal", journal))
    tab.call("Performance.enable")
    plain = memory_of_scripts(tab)
    opening.put(folder, "named.names", json.dumps(names).encode())
    opening.load(tab, opening.page_of(folder, "named.journal", journal))
    more = memory_of_scripts(tab) - plain
    assert more < MOST_OF_A_CALL * NAMED_CALLS, f"{more:,} bytes more with names than without"
    place = next(place for place, call in enumerate(calls, 1) if call[3] == "send" and place > NAMED_CALLS // 2)
    channel, value = calls[place - 1][2], calls[place - 1][5]
    tab.run(f"location.hash = '#call={place}'")
    opening.settle(tab, place)
    shown = names["values"][channel][value]
    line = 300 + (sum(call[2] == channel for call in calls[:place]) - 1) % 100
    assert shown in tab.text("state") and f"src/pool.rs:{line} " in tab.text("sentence"), (tab.text("state"), shown, tab.text("sentence"), line)
    hits = sum(len(range(50, count, 100)) for count in (sum(call[2] == str(channel) for call in calls) for channel in range(16)))
    search.seek(tab, "SRC/pool.rs:350")
    tab.wait(f"/^hit [0-9,]+ of {hits:,}(,|$)/.test({search.HIT})")


def mean_step(tab, most):
    """What one of many steps takes."""
    def act():
        tab.key("Home")
        opening.settle(tab, 0)
        return sum(tab.run(STEPS)) / 1000
    took = least(tab, act, MANY * most)
    return Took(took.clock / MANY, took.processors / MANY, took.idle)


def told(took):
    return f"{1000 * took.clock:.0f} ms, of processors {1000 * took.processors:.0f} ms"


def first_paint(tab, folder):
    """The first calls of a long run are shown soon, and later all of it."""
    path = opening.page_of(folder, "speed_long.journal", native.record(runs.large(LONG)))
    first = opened(tab, path, FIRST_PAINT)
    tab.wait("document.getElementById('walk').getAttribute('aria-busy') === null")
    all_read = tab.run("performance.now()") / 1000
    print(f"  {LONG:,} calls: first paint {told(first)}; all read {all_read:.2f} s; {100 * first.idle:.0f} % of the machine did nothing else")
    assert is_within(first, FIRST_PAINT), "slower than it may be"


def figures(tab, folder, journals):
    """Opening, and steps in the window as it opens and in the whole run; and the first paint of a long run."""
    tab.call("Page.addScriptToEvaluateOnNewDocument", source=WATCH)
    tab.call("Performance.enable")
    for calls, (most_open, most_step) in PROMISED.items():
        path = opening.page_of(folder, f"speed_{calls}.journal", journals[calls])
        first = opened(tab, path, most_open)
        opening.settle(tab, 0)
        near = mean_step(tab, most_step)
        tab.key("0")
        tab.wait(f"document.getElementById('picture').getAttribute('aria-label').includes('The start and calls 1 to {calls},')")
        far = mean_step(tab, most_step)
        print(f"  {calls:,} calls: open {told(first)}; a step {told(near)}, in the whole run {told(far)}; "
              f"{100 * min(first.idle, near.idle, far.idle):.0f} % of the machine did nothing else")
        assert is_within(first, most_open) and is_within(near, most_step) and is_within(far, most_step), "slower than it may be"
    first_paint(tab, folder)
    for size, promised in POOLS.items():
        check_pool(tab, folder, size, promised)

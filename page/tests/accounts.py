"""The answer panel of runs whose names have no account: the page makes it, and it is that of `yovanelum why` over random runs."""
import json
import random

import failing
import native
import opening
import runs

FACTS = "[...document.querySelectorAll('#answer .fact')].map(part => [...part.querySelectorAll('.line')].map(line => line.textContent))"

# A pool of names, some of which are hard to write on one line.
TEXTS = ['order "7"', "a\nb", "zwj 👩‍🚀", "tab\there", "é" * 50, "back\\slash", "\u202eturned", "plain"]


def short_script(chance, calls):
    """Random calls over two broadcasts and a watch, by handles that there may not be, with receivers that are never read, and senders that leave."""
    lines = [f"broadcast {chance.choice([1, 2, 3, 5])}", "broadcast 1", "watch 0", "actors 4"]
    for value in range(calls):
        channel, turn = chance.randrange(3), chance.random()
        received = chance.choice(["update", "borrow", "has-changed", "changed"]) if channel == 2 else "try-recv"
        words = "subscribe 0" if turn < 0.08 else f"{received} {chance.randint(1, 2)}" if turn < 0.3 else f"drop {chance.choice([0, 0, 1, 2])}" if turn < 0.36 else f"send 0 {value}"
        lines.append(f"{chance.randrange(4)} {channel} {words}")
    return ("\n".join(lines) + "\n").encode()


def random_run(chance):
    """A script over two broadcasts and a watch, and names for some of what is in it, with an end that a panic or a call that waits may be."""
    calls = chance.randrange(5, 120)
    script = runs.script(calls) if chance.random() < 0.3 else short_script(chance, calls)
    journal = native.record(script)
    if chance.random() < 0.3:
        return journal, None
    names = {"version": 3, "actors": {}, "channels": {}, "values": {}, "handles": {}}
    for table, count in (("actors", 4), ("channels", 3)):
        names[table] = {str(number): f"{table[:-1]} {number} {chance.choice(TEXTS)}" for number in range(count) if chance.random() < 0.6}
    for channel in range(3):
        if chance.random() < 0.7:
            names["values"][str(channel)] = {str(value): f"{chance.choice(TEXTS)} {value}" for value in range(calls)}
        names["handles"][str(channel)] = {str(handle): f"reader {handle}" for handle in range(1, 4) if chance.random() < 0.4}
    ends(chance, calls, names)
    return journal, json.dumps(names)


def ends(chance, calls, names):
    """Adds how the run ended, and where its calls stand in the sources."""
    names["locations"] = [["tests/bus.rs", line, 5] for line in range(1, 9)]
    if chance.random() < 0.5:
        names["panics"] = [{"text": "", "location": chance.randrange(8), "actor": chance.choice([None, 0, 1, 2, 3]), "since": chance.randrange(calls)}
                           for _ in range(chance.randint(1, 2))]
    if chance.random() < 0.2:
        names["returned"] = {"location": chance.randrange(8), "since": chance.randrange(calls)}
        names["test"] = {"package": "p", "target": "bus", "name": "t", "thread": "nobody"}
    if chance.random() < 0.4:
        names["waiting"] = [{"actor": 1, "channel": chance.randrange(3), "handle": 1, "call": "recv", "since": chance.randrange(calls), "location": chance.choice([None, 3])}]
    if chance.random() < 0.3:
        names["unrecorded"] = {"channels": chance.randrange(3), "left": chance.randrange(2), "calls": chance.random() < 0.5, "handles": 1, "locked": 0}


def made_as_why_says(tab, folder, journals):
    """Over random runs, with names without an account and without names, the page's answer has the facts, reasons, counts and waits of `why --json`,
    and the run opens at its first place."""
    failing.said()
    chance = random.Random(68)
    kinds = set()
    for number in range(60):
        journal, names = random_run(chance)
        if names is not None:
            opening.put(folder, f"run{number}.names", names.encode())
        path = opening.page_of(folder, f"run{number}.journal", journal)
        account = json.loads(failing.command("why", f"{folder}/run{number}.journal", "--json"))
        opening.load_first(tab, path)
        is_found = account["facts"] or account["waiting"] or account["failure"] is not None
        opening.settle(tab, account["look"] if is_found else 0)
        failing.check_answer_text(tab, account)
        kinds |= {(fact["kind"], fact["order"]) for fact in account["facts"]}
        if account["failure"] is not None:
            kinds.add("failure")
    assert kinds >= {("loss", 7), ("loss", 8), ("loss", 13), ("unlearned", 11), ("closing", 14), "failure"}, kinds


# Each address of a place in the sources in the answer, and the text that its button copies.
LINKS = "[...document.querySelectorAll(':is(#failed, #answer) .source')].map(it => [it.querySelector('a')?.getAttribute('href') ?? null, it.querySelector('.copy').dataset.copy])"


def names_beside(page):
    with open(failing.beside(page, ".names"), encoding="utf-8") as file:
        return json.load(file)


def open_in_the_editor(tab, folder, journals):
    """The place of the failure, and of each step of the answer that has one in the sources, links to it in VS Code, below the root of the names, and its
    button copies it. Another editor is kept for the next time, and what is no editor's address makes no link."""
    page, place = failing.addresses()["no_price_is_missing"]
    names = names_beside(page)
    places = [names["account"]["failed"]["location"]]
    places += [it["location"] for fact in names["account"]["facts"] for it in fact["places"] if it["location"]]
    opening.load(tab, page, place)
    assert len(places) == 4 and tab.run(LINKS) == [
        [f"vscode://file{names['root']}/{file}:{line}:{column}", f"{file}:{line}:{column}"] for file, line, column in places], tab.run(LINKS)
    said = tab.run("document.querySelector('#sentence .source a').href")
    assert said == f"vscode://file{names['root']}/src/lib.rs:{failing.line_of('a price is sent').split(':')[1]}:20", said
    tab.run("Object.defineProperty(navigator, 'clipboard', { value: { writeText: async text => { window.copied = text; } } })")
    tab.click("#failed .copy")
    tab.wait(f"window.copied === '{':'.join(map(str, places[0]))}'")
    for form, address in (("idea://open?file={path}&line={line}", "idea://open?file=%s/%s&line=%d"), ("javascript:alert({line})", None)):
        tab.click("#help-button")
        tab.run("document.getElementById('editor').select()")
        tab.type(form)
        tab.run("document.getElementById('editor').blur()")
        assert tab.run("document.getElementById('editor-fault').hidden") == (address is not None)
        opening.load(tab, page, place)
        wanted = [[address and address % (names["root"], file, line), f"{file}:{line}:{column}"] for file, line, column in places]
        assert tab.run(LINKS) == wanted, tab.run(LINKS)
    tab.run("localStorage.clear()")


def begins_at_the_answer(tab, folder, journals):
    """A run whose address has no place is opened at the account's first place, with that loss chosen, whether names have the account, or it is made. A
    dropped one is too. An address with a place leads there."""
    page, _ = failing.addresses()["the_orders_are_whole"]
    opening.load_first(tab, page)
    opening.settle(tab, 18)
    assert tab.run("document.querySelector('.loss h3').textContent").startswith("to desk · receiver 1 lost 1 value"), tab.text("state")[:200]
    with open(failing.beside(page, ".journal"), "rb") as file:
        bare = opening.put(folder, "bare.journal", file.read())
    tab.load(native.PAGE)
    tab.wait("window.ttd")
    tab.drop(bare)
    opening.settle(tab, 18)
    assert tab.run("document.querySelector('.loss h3').textContent").startswith("a0 actor 0 · receiver 1 lost 1 value"), tab.text("state")[:200]
    opening.load(tab, page, 5)


def answer_on_a_phone(tab, folder, journals):
    """On a phone the answer is the first screen, for each kind of failure, also where the address has a place. A step of it leads into the picture."""
    for width, height in ((390, 844), (844, 390), (320, 568)):
        tab.resize(width, height)
        for name in ("no_price_is_missing", "each_state_is_seen", failing.HANGS):
            page, place = failing.addresses()[name]
            opening.load(tab, page, place)
            shown = tab.run("['answer-box', 'picture', 'slider', 'state'].map(name => document.getElementById(name).checkVisibility())")
            assert shown == [True, height == 844, False, False], (width, name, shown)
            first = tab.run("document.querySelector('#answer [data-place]').getBoundingClientRect().toJSON()")
            assert 0 <= first["top"] and first["bottom"] <= height and 0 <= first["left"] and first["right"] <= width, (width, name, first)
            step = tab.run("Number(document.querySelector('#answer [data-place]').dataset.place)")
            tab.click("#answer [data-place]")
            opening.settle(tab, step)
            assert tab.run("document.getElementById('slider').checkVisibility()")
            assert tab.run("document.getElementById('picture').height") > height / 6, (width, height)
    tab.resize(1440, 920)


def cause_in_whole(tab, folder, journals):
    """At the cause of each loss of the failing tests, the sentence isn't cut, and says who lost it and where the call stands, and calls in the list have
    the texts of their values, at two widths or four."""
    for name in ("no_price_is_missing", "the_log_is_read", "the_orders_are_whole", "the_notes_are_whole", failing.FORTY):
        page, _ = failing.addresses()[name]
        account = names_beside(page)["account"]
        place = account["facts"][0]["places"][0]
        for width, height in ((1366, 768), (390, 844), (1440, 900), (1024, 768))[:native.rounds(2, 4)]:
            tab.resize(width, height)
            opening.load(tab, page, place["place"])
            tab.run("document.querySelector('#tabs [data-tab=picture]').click()")
            room, need = tab.run("(it => [it.clientHeight, it.scrollHeight])(document.getElementById('sentence'))")
            assert need <= room, (name, width, room, need, tab.text("sentence"))
            file, line, _ = place["location"]
            assert f" at {file}:{line}" in tab.text("sentence") and "not read by" in tab.text("sentence"), tab.text("sentence")
            assert tab.run("[...document.querySelectorAll('#calls [aria-current] q')].every(it => it.offsetWidth > 40)"), (name, width)
            assert tab.run("document.querySelector('#calls [aria-current] q')") is not None, (name, width)
    tab.resize(1440, 920)


def ends_of_lines(tab, folder, journals):
    """The end of a line in a text is `↵`, and the call in whole has its lines below each other."""
    page, place = failing.addresses()["the_notes_are_whole"]
    opening.load(tab, page, place)
    assert "U+000A" not in tab.run("document.body.innerText")
    assert "Order {↵ id: 1,↵ note: " in tab.text("state"), tab.text("state")[:300]
    tab.key("i")
    lines = tab.run("document.querySelector('#whole-call .text').innerText").split("\n")
    assert lines[:2] == ["Order {", "    id: 2,"] and lines[3] == "} 👩‍🚀🦀", lines


TESTS = [made_as_why_says, open_in_the_editor, begins_at_the_answer, answer_on_a_phone, cause_in_whole, ends_of_lines]

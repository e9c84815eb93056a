"""The head of the page says where a replay became another run than that of its journal, and which race decides in a run that a search found, with links to
the calls, as the report has both."""
import functools
import json
import re
import subprocess

import failing
import first_look
import opening

FILE = "tests/orders.rs"
REPLAYED = "each_bid_is_there"
EXPLORED = "the_last_limit_is_applied"
CARGO = ["cargo", "test", "--offline", "--test", "orders", "--"]
# How the head begins and ends, and its links with their places.
ORDER = "[...document.querySelectorAll('#failed .order')].map(it => it.innerText.replace(/\\s+/g, ' ').trim())"
LINKS = "[...document.querySelectorAll('#failed .order a')].map(it => [it.innerText.replace(/\\s+/g, ' ').trim(), Number(it.dataset.place)])"
# Whether the text behind a link goes on in the link's last line.
GOES_ON = """[...document.querySelectorAll('#failed .order a')].map(link => {
    const range = document.createRange(), last = [...link.getClientRects()].at(-1);
    range.setStart(link.nextSibling, 0);
    range.setEnd(link.nextSibling, 1);
    const { top, bottom } = range.getBoundingClientRect();
    return top < last.bottom && last.top < bottom;
})"""
TOPS = "['.order', 'h2'].map(part => document.querySelector(`#failed ${part}`).getBoundingClientRect().top)"


def ran(name, **variables):
    """What a test prints that fails."""
    done = subprocess.run([*CARGO, name, "--exact"], cwd=failing.PACKAGE, env={**failing.environment(), **variables}, stdout=subprocess.PIPE,
                          stderr=subprocess.STDOUT, text=True, timeout=failing.PATIENCE)
    assert done.returncode != 0, done.stdout
    return done.stdout


@functools.cache
def pages():
    """What is printed of a replay that diverges, and of a search, each with its page and the place in its address. They are run once."""
    failing.make_package()
    [(page, _)] = first_look.LOOK.findall(ran(REPLAYED))
    replayed = ran(REPLAYED, YOVANELUM_REPLAY=failing.beside(page, ".journal"), SHOP_FEW="1")
    explored = ran(EXPLORED, YOVANELUM_EXPLORE="500", YOVANELUM_EXPLORE_JOBS="1")
    return {name: (said, *first_look.LOOK.findall(said)[-1]) for name, said in ((REPLAYED, replayed), (EXPLORED, explored))}


def account_of(page):
    with open(failing.beside(page, ".names"), encoding="utf-8") as file:
        return json.load(file)["account"]


def replay_that_diverged(tab, folder, journals):
    """Above the failure it is said from which call on this is another run, which the call before it isn't, and the call is a link."""
    said, page, place = pages()[REPLAYED]
    assert "replayed" in page, page
    account = account_of(page)
    text = account["replay"]["text"]
    line = failing.line_of("a bid is sent", (FILE,))
    wanted = (f"from call 2 on, this is another run than that of {REPLAYED}.journal: the replay diverges at call 2 of 6: expected `send 0` on `bids` by "
              f"`{REPLAYED}` at {line}, came `try-recv 1` on `bids` by `{REPLAYED}` at {failing.line_of('the auction asks', (FILE,))}")
    assert text == wanted and account["replay"]["place"] == 2, account["replay"]
    assert f"\nyovanelum: {text}\n" in said and failing.why(page).startswith(f"yovanelum: {text}\n"), said
    for width, height in first_look.SIZES:
        tab.resize(width, height)
        opening.load(tab, page, int(place))
        assert tab.run(ORDER) == [failing.shown(text)] and tab.run(LINKS) == [["call 2", 2]], tab.run(ORDER)
        assert first_look.spaced("from call 2 on, this is another run than that of") in first_look.spaced(tab.run(first_look.IN_SIGHT)), width
        top, below = tab.run(TOPS)
        assert top < below, (width, top, below)
    tab.run("document.querySelector('#failed .order a').click()")
    opening.settle(tab, 2)
    tab.resize(1440, 920)


def race_of_a_failing_order(tab, folder, journals):
    """Below the failure is the race of the search, in which both calls are links to their places in this run."""
    said, page, place = pages()[EXPLORED]
    printed = re.search(r"^  the race: (.*\n.*)$", said, re.M)
    assert printed, said
    account = account_of(page)
    race = account["race"]
    assert race["text"] == " ".join(printed[1].split()), (race, printed[1])
    assert f"\nthe race: {race['text']}\n" in failing.why(page), failing.why(page)
    steps = [race["first"], race["then"]]
    # The send comes between the look and the mark. It passes if that comes before the look, or behind the mark.
    of_calls = {"limits.send": "a new limit is sent", "limits.borrow": "what came is applied", "limits.mark_unchanged": "what came is marked"}
    made = [next((call for call in of_calls if call in it["text"]), None) for it in steps]
    assert made in (["limits.send", "limits.mark_unchanged"], ["limits.borrow", "limits.send"]), steps
    lines = [failing.line_of(of_calls[call], (FILE,)) for call in made]
    assert lines[0] in steps[0]["text"], steps
    assert all(it["place"] for it in steps) and steps[0]["place"] < steps[1]["place"], steps
    for width, height in first_look.SIZES:
        tab.resize(width, height)
        opening.load(tab, page, int(place))
        assert tab.run(ORDER) == [failing.shown(f"the race: {race['text']}")], tab.run(ORDER)
        assert tab.run(LINKS) == [[failing.shown(it["text"]), it["place"]] for it in steps], tab.run(LINKS)
        assert tab.run(GOES_ON) == [True, True], width
        below, top = tab.run(TOPS)
        assert top < below, (width, top, below)
    for index, (step, line) in enumerate(zip(steps, lines)):
        tab.run(f"document.querySelectorAll('#failed .order a')[{index}].click()")
        opening.settle(tab, step["place"])
        assert line in tab.run("document.getElementById('sentence').textContent"), tab.text("sentence")
    tab.resize(1440, 920)


def odd_orders(tab, folder, journals):
    """What a later writer has in their place is left out, a step without a call is text, and both are in the Markdown."""
    said, page, place = pages()[EXPLORED]
    with open(failing.beside(page, ".names"), encoding="utf-8") as file:
        names = json.load(file)
    with open(failing.beside(page, ".journal"), "rb") as file:
        journal = file.read()
    step = {"text": "`a` made x", "place": None}
    for number, (race, shown) in enumerate((([7], []), ({"text": "it fails where `a` made x, before b", "first": step, "then": {"text": "b"}}, ["the race: it fails where a made x, before b"]))):
        account = {**names["account"], "race": race, "replay": {"text": 7}}
        opening.put(folder, f"{number}.names", json.dumps({**names, "account": account}).encode())
        opening.load(tab, opening.page_of(folder, f"{number}.journal", journal), int(place))
        assert tab.run(ORDER) == shown and tab.run(LINKS) == [], tab.run(ORDER)
    tab.run("void (navigator.clipboard.writeText = async text => { window.copied = text; })")
    tab.run("document.getElementById('report').click()")
    tab.wait("window.copied")
    assert "\nthe race: it fails where a made x, before b\n" in tab.run("copied"), tab.run("copied")


TESTS = [replay_that_diverged, race_of_a_failing_order, odd_orders]

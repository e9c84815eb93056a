"""Whose a row is, actors that are told apart by more than colour, and which version each reader of a watch has."""
import itertools
import json

import found
import native
import opening
import real_runs
from opening import check_place
from texts import DRAWN_TEXTS

SCRIPT = b"""broadcast 2
watch 5
actors 3
1 0 subscribe 0 as slow
2 1 clone-receiver 1 as late
0 1 send 0 6
0 1 send 0 7
0 1 send 0 8
2 1 update late
0 1 send 0 9
0 0 drop 1
0 1 drop 0
2 1 has-changed late
2 1 changed late
2 1 changed late
"""


def drawn_texts(tab):
    return [text for text, _, _ in tab.run(DRAWN_TEXTS)["texts"]]


def whose_rows(tab, folder, journals):
    """A row says whose it is: by who used the handle last, by the name that the script gives it, or by the file of names."""
    journal, names = real_runs.bus()
    opening.put(folder, "bus.names", names)
    opening.load(tab, opening.page_of(folder, "bus.journal", journal), 300)
    texts, state = drawn_texts(tab), tab.text("state")
    for owner, row in (("nightly-export", "receiver 7"), ("publisher", "sender 0"), ("audit-log", "receiver 4"), ("main", "sender 0")):
        assert f"{owner} · {row}" in texts, texts
        assert row.startswith("sender") or f"{owner} · {row}" in state, state
    opening.load(tab, opening.page_of(folder, "script.ttd", SCRIPT), 9)
    texts = drawn_texts(tab)
    for row in ("slow · receiver 2", "late · receiver 2", "actor 0 · receiver 1", "actor 0 · sender 0"):
        assert row in texts, (row, texts)
    named = json.dumps({"actors": {"2": "screen"}, "handles": {"0": {"2": "the slow one"}}}).encode()
    opening.put(folder, "script.names", named)
    opening.load(tab, opening.page_of(folder, "script.ttd", SCRIPT), 9)
    assert "the slow one · receiver 2" in tab.text("state"), tab.text("state")


def long_owners(tab, folder, journals):
    """A name that is too long is cut, and the number of the handle stays."""
    names = json.dumps({"actors": {"1": "m" * 200}}).encode()
    opening.put(folder, "long.names", names)
    opening.load(tab, opening.page_of(folder, "long.ttd", SCRIPT.replace(b" as slow", b"")), 3)
    cut = [text for text in drawn_texts(tab) if text.startswith("mm") and text.endswith("… · receiver 2")]
    assert cut, drawn_texts(tab)


def told_apart(tab, folder, journals):
    """Each of 40 actors has a code of its own, and its badge differs from others where no colour is seen, or green isn't told from red."""
    journal, names = real_runs.pool()
    opening.put(folder, "pool.names", names)
    opening.load(tab, opening.page_of(folder, "pool.journal", journal), 300)
    badges = "#legend .badge"
    codes = tab.run(f"[...document.querySelectorAll('{badges}')].map(it => it.textContent)")
    assert len(codes) == len(set(codes)) == real_runs.POOL_ACTORS and "p08" in codes and "w13" in codes, codes
    assert len(set(codes) & set(drawn_texts(tab))) >= 4, "the picture has no codes"
    tab.key("?")
    edges = tab.run(f"[...document.querySelectorAll('{badges}')].map(it => it.className)")
    assert len(set(edges)) == 3, edges
    assert tab.run("document.querySelector('#sentence .badge').textContent") in codes
    for kind in ("none", "achromatopsia", "deuteranopia"):
        tab.call("Emulation.setEmulatedVisionDeficiency", type=kind)
        pictures = []
        for number in (0, 1, 7, 8, 16, 39):
            path = f"{folder}/{kind}{number}.png"
            tab.picture(path, f"#legend li:nth-child({number + 1}) .badge")
            with open(path, "rb") as file:
                pictures.append(file.read())
        assert all(one != other for one, other in itertools.combinations(pictures, 2)), kind
    tab.call("Emulation.setEmulatedVisionDeficiency", type="none")


def versions(tab, folder, journals):
    """A watch's reader shows which version it has and how many changes it never looked at, in the table of the whole run. At a closed watch a question leaves one change open."""
    opening.load(tab, opening.page_of(folder, "versions.ttd", SCRIPT))
    ask = opening.asker(native.record(SCRIPT))
    wanted = {2: "has 0, seen", 3: "has 0 of 1", 4: "has 0 of 2, missed 1", 5: "has 0 of 3, missed 2", 6: "has 3, seen", 7: "has 3 of 4"}
    for place in range(13):
        check_place(tab, ask, place)
        text = wanted.get(place)
        shown = tab.run("[...document.querySelectorAll('#state [data-channel=\"1\"] dl div')].map(it => it.textContent)")
        assert text is None or any(it.endswith(f"receiver 2{text}") for it in shown), (place, shown)
        if text and not text.endswith("seen"):
            assert text.replace("has ", "") in drawn_on_cursor(tab), drawn_on_cursor(tab)
        tab.key("ArrowRight")
    ends = tab.run("Object.fromEntries([...document.querySelectorAll('#table-rows tr[data-receiver]')].map(it => [it.dataset.receiver, it.lastChild.textContent]))")
    assert ends["1 1"] == "has 0 of 4, never looked at 4 changes" and ends["1 2"].endswith(", never looked at 3 changes"), ends
    for place, ending in ((10, "one change that it hasn't seen may still come)"), (12, "nothing more will come)")):
        tab.run(f"void (location.hash = '#call={place}')")
        opening.settle(tab, place)
        assert tab.text("sentence").endswith(ending), tab.text("sentence")


def drawn_on_cursor(tab):
    """The texts that are drawn over the picture at the place."""
    return tab.run("""(() => {
        const pens = CanvasRenderingContext2D.prototype, { fillText } = pens, texts = [];
        pens.fillText = function (text, ...where) { texts.push(text); return fillText.call(this, text, ...where); };
        dispatchEvent(new Event('resize'));
        pens.fillText = fillText;
        return texts;
    })()""")


def unseen_changes(tab, folder, journals):
    """U and Shift U go to the nearest place where a receiver of a watch begins to have a value that it hasn't seen."""
    journal = journals[10_000]
    ask = opening.asker(journal)
    opening.load(tab, opening.page_of(folder, "unseen.journal", journal))
    places = unseen_places(ask, 600)
    assert len(places) > 8, places
    for place in places[:6]:
        tab.key("u")
        check_place(tab, ask, place)
    for place in places[4:2:-1]:
        tab.key("U", shift=True)
        check_place(tab, ask, place)


def unseen_places(ask, last):
    """The places, by the program's states, at which a receiver of the watch 2 hasn't seen the value and had one place before, or wasn't there."""
    places, before = [], set()
    for state in found.states(ask, last):
        now = {it["handle"] for it in state["channels"][2]["receivers"] if not it["seen"]}
        if now - before:
            places.append(state["place"])
        before = now
    return places

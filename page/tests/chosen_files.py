"""Files that are opened in the page: chosen, dropped, several at once, or such that can't be opened."""
import json

import native
import opening
import runs
from hands import FAILING, script_asker
from opening import check_place

# Its third send overwrites a value that isn't read, so it is opened there.
SCRIPT = b"broadcast 2\n0 0 send 0 9\n0 0 send 0 10\n0 0 send 0 11\n0 0 recv 1\n"
CAUSE = 3


def told(tab, name, beginning):
    tab.wait(f"document.getElementById('{name}').textContent.startsWith({json.dumps(beginning)})")


def choose(tab, *paths, name="#file"):
    """Chooses files in the page's field, as its button does."""
    root = tab.call("DOM.getDocument")["root"]["nodeId"]
    field = tab.call("DOM.querySelector", nodeId=root, selector=name)["nodeId"]
    tab.call("DOM.setFileInputFiles", nodeId=field, files=list(paths))


def empty_page(tab):
    tab.load(native.PAGE)
    tab.wait("window.ttd")


def chosen_again(tab, folder, journals):
    """A file that is chosen again is read again."""
    empty_page(tab)
    choose(tab, opening.put(folder, "chosen.ttd", SCRIPT))
    told(tab, "facts", "chosen.ttd · 4 calls")
    again = SCRIPT + b"0 0 recv 1\n"
    choose(tab, opening.put(folder, "chosen.ttd", again))
    told(tab, "facts", "chosen.ttd · 5 calls")
    check_place(tab, script_asker(again), CAUSE)


def drop_with_names(tab, folder, journals):
    """A journal is dropped together with its file of names, in either order."""
    journal = opening.put(folder, "named.journal", journals[63])
    names = opening.put(folder, "named.names", runs.example_file("price_feed.names"))
    for files in ([journal, names], [names, journal]):
        empty_page(tab)
        tab.drop(*files)
        opening.settle_at_start(tab)
        tab.key("l")
        tab.key("l")
        opening.settle(tab, 23)
        assert tab.text("sentence").startswith("sa slow auditor on prices: recv 2 → lagged 2"), tab.text("sentence")


def note_on_the_core(tab, folder, journals):
    """A note on the core that answered the calls is shown beside the run's numbers, as a text. A run without one is shown as ever."""
    journal = opening.put(folder, "noted.journal", journals[63])
    for note in ("answered by the plain core", "<b>answered</b>"):
        names = opening.put(folder, "noted.names", json.dumps({"core": note, "actors": {"0": "exchange"}}).encode())
        empty_page(tab)
        tab.drop(journal, names)
        opening.settle(tab)
        assert tab.text("facts").startswith("noted.journal · 63 calls · "), tab.text("facts")
        assert tab.text("facts").endswith(f" · {note}"), tab.text("facts")
        assert tab.text("notice") == ""
    tab.drop(journal)
    told(tab, "facts", "noted.journal · 63 calls · ")
    tab.wait("!document.getElementById('facts').textContent.includes('answered')")


def places_of_two_runs(tab, folder, journals):
    """The place in the address is one of the run in the page's own file. A run that is dropped on the page is opened where its account says, or at its start."""
    opening.load(tab, opening.page_of(folder, "first.journal", journals[63]), 3)
    tab.key("ArrowLeft")
    tab.wait("location.hash.startsWith('#call=2&')")
    tab.drop(opening.put(folder, "second.ttd", SCRIPT))
    told(tab, "facts", "second.ttd · 4 calls")
    check_place(tab, script_asker(SCRIPT), CAUSE)
    tab.wait(f"location.hash.startsWith('#call={CAUSE}&')")


def failed_opening(tab, folder, journals):
    """If the debugger fails on a file, the run before isn't shown under the file's name. A refused file has its own title."""
    opening.load(tab, opening.page_of(folder, "first.journal", journals[63]))
    tab.run(FAILING)
    tab.drop(opening.put(folder, "second.ttd", SCRIPT))
    told(tab, "notice", "The debugger failed: no memory.")
    parts = "['walk', 'refusal', 'welcome'].filter(name => !document.getElementById(name).hidden).join()"
    assert tab.run(f"[{parts}, document.title, document.getElementById('facts').textContent]") == [
        "welcome", "second.ttd · Yovanelum", "second.ttd"]
    tab.drop(opening.put(folder, "third.ttd", SCRIPT))
    told(tab, "facts", "third.ttd · 4 calls")
    check_place(tab, script_asker(SCRIPT), CAUSE)
    assert tab.text("notice") == ""
    tab.drop(opening.put(folder, "refused.ttd", b"broadcast 0\n"))
    tab.wait("!document.getElementById('refusal').hidden")
    assert tab.run(f"[{parts}, document.title]") == ["refusal", "refused.ttd · Yovanelum"]

"""run.py BROWSER [NAME..]: runs the page's tests in a browser, all of them or those that are named. `--failing` in the place of names stands for those
that open what failing tests have left, and `--others` for all but these, so that the two can run side by side. Both leave out what is slow, which
`--slow` stands for. The last line counts them.
"""
import sys
import tempfile
import time
import traceback

import accounts
import against
import answers
import beginning
import bidi
import chosen_files
import dark
import dropped
import failing
import faults
import first_look
import hands
import incoming
import jumps
import layout
import lives
import looks
import losses
import native
import orders
import owners
import rows
import runs
import search
import shown
import sources
import speed
import story
import tasks
import texts
import weak
import wheel_and_stop
import windows
from browser import Browser, Tab


def bare(test):
    """A test of the debugger alone, in the page without a run."""
    def run(tab, folder, journals):
        tab.load(native.PAGE)
        tab.wait("window.ttd")
        answers.prepare(tab, journals)
        test(tab, journals)
    run.__name__, run.__doc__ = test.__name__, test.__doc__
    return run


random_commands, spoiled_texts = bare(answers.random_commands), bare(answers.spoiled_texts)
TESTS = [
    shown.pictures, shown.lagging_is_red, dark.dark_colours, shown.hostile_names, shown.refused_markup, shown.wrong_names, shown.spoken,
    shown.nothing_is_loaded, bidi.written_out, bidi.right_to_left, hands.keys, hands.loss_keys, hands.hurried_searches, hands.failed_search, hands.early_click, hands.stops,
    hands.buttons, hands.mouse, wheel_and_stop.wheel, wheel_and_stop.stop_field, hands.drops, chosen_files.chosen_again, chosen_files.drop_with_names,
    chosen_files.note_on_the_core, chosen_files.places_of_two_runs, chosen_files.failed_opening, incoming.names_in_any_order, incoming.names_of_another_run, incoming.foreign_texts,
    incoming.several_runs, incoming.kept_for_a_reload, incoming.cut_journals, incoming.signs, jumps.history_of_jumps, jumps.address_keeps, jumps.console_commands,
    rows.seen_after_losses, rows.list_after_losses, rows.wide_after_losses, rows.rows_in_sight, rows.heads_over_rows, rows.same_order, rows.nothing_moves, rows.folds_and_filter, rows.fold_by_key, rows.lossy_first, rows.narrow_tabs,
    owners.whose_rows, owners.long_owners, owners.told_apart, owners.versions, owners.unseen_changes,
    jumps.picture_as_png, jumps.picture_as_svg, jumps.report_as_markdown, jumps.help_of_keys, jumps.zoom_at_pointer, jumps.touch,
    hands.waiting_script, hands.refusals, hands.example, hands.files_that_are_not_there, hands.addresses, shown.large_runs,
    shown.quick_walking, shown.many_handles, weak.weak_senders, weak.weak_rows, texts.large_numbers, texts.long_texts, speed.names_take_little, speed.figures,
    *dropped.TESTS, *losses.TESTS, *lives.TESTS, *sources.TESTS, *failing.TESTS, *accounts.TESTS, *layout.TESTS, *search.TESTS, *story.TESTS, *tasks.TESTS,
    *against.TESTS, *windows.TESTS, *beginning.TESTS, *first_look.TESTS, *orders.TESTS, *looks.TESTS, *faults.TESTS,
    bare(answers.example_sessions), random_commands, spoiled_texts,
]

# Those of long runs and of many windows, or of a thousand random cases of the debugger alone, which is built seldom; and those that `--slow` has more
# runs, places or sizes for.
SLOW = {speed.figures, shown.large_runs, shown.quick_walking, shown.many_handles, random_commands, spoiled_texts, rows.wide_after_losses,
        rows.list_after_losses, rows.seen_after_losses, rows.heads_over_rows, losses.lost_everywhere, accounts.made_as_why_says,
        windows.window_as_why_says, against.in_each_window, *beginning.TESTS,
        *(test for test in failing.TESTS if test.__name__ in failing.LONG)}
LONGER = {accounts.cause_in_whole, layout.nothing_over_anything, against.same_as_a_plain_model}

# Those that open what the tests of `failing` have left, which cargo runs once for all of them.
OF_FAILING = {*accounts.TESTS, *against.TESTS, *failing.TESTS, *layout.TESTS, *search.TESTS, *story.TESTS, *first_look.TESTS, *orders.TESTS, *looks.OF_FAILING, *faults.TESTS, jumps.report_as_markdown}


def fault_of(name, run):
    """Runs a test. Returns nothing if it passed, and else what it failed with."""
    start, fault = time.monotonic(), ""
    try:
        run()
    except Exception:
        fault = f"page {name}: failed\n{traceback.format_exc()}"
    print(f"page {name}: {'failed' if fault else 'passed'}, {time.monotonic() - start:.1f} s", flush=True)
    return fault


def in_tab(test, browser, journals):
    """Runs a test in a tab of its own, in which the page must report no error, and find the handles that the debugger lists."""
    tab = Tab(browser)
    tab.call("Page.addScriptToEvaluateOnNewDocument", source=lives.WATCH)
    try:
        with tempfile.TemporaryDirectory() as folder:
            test(tab, folder, journals)
        faults = tab.faults()
        assert not faults, f"the page told of {faults}"
    finally:
        tab.close()


def named(word):
    """The tests of this name, or else those whose names have it as a part."""
    if word == "--slow":
        return [test for test in TESTS if test in SLOW | LONGER]
    if word in ("--failing", "--others"):
        return [test for test in TESTS if test not in SLOW and (test in OF_FAILING) == (word == "--failing")]
    tests = [test for test in TESTS if test.__name__ == word] or [test for test in TESTS if word in test.__name__]
    if not tests:
        print(f"no test of the page has {word} in its name\n0 passed, 1 failed")
        sys.exit(1)
    return tests


def run_all(program, tests):
    """Runs the tests. Returns what each failed with, in order, or nothing where it passed."""
    journals = runs.journals()
    browser = Browser(program)
    try:
        return [fault_of(test.__name__, lambda: in_tab(test, browser, journals)) for test in tests]
    finally:
        browser.close()


def main():
    program, *words = sys.argv[1:]
    tests = [test for word in words for test in named(word)] if words else TESTS
    faults = run_all(program, tests)
    failed = [fault for fault in faults if fault]
    # What failed comes last, where it is seen.
    print("".join(failed), end="")
    print(f"{len(faults) - len(failed)} passed, {len(failed)} failed")
    sys.exit(bool(failed))


main()

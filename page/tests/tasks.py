"""The lanes of tasks below the picture, of a run and its names that are worked by hand: the audit waits for a lock from call 2 on, while the feed sends, until
the backup wakes it after call 5. Then it is told that it lost a value."""
import json

import opening
from hands import GUTTER
from rows import drawn

JOURNAL = b"""ttd-journal 2
broadcast 2
steps
1 0 0 send 0 0 = sent 1
2 1 0 recv 1 = value 0
3 0 0 send 0 1 = sent 1
4 0 0 send 0 2 = sent 1
5 0 0 send 0 3 = sent 1
6 1 0 recv 1 = lagged 1
end
"""
LATE = "from call 2 to call 5 its task waited 12 ms in Mutex::lock, src/db.rs:40; woken by backup, src/backup.rs:39"
NAMES = {
    "version": 5, "actors": {"0": "feed", "1": "audit"},
    "locations": [["src/db.rs", 40, 21], ["src/backup.rs", 39, 5]],
    "account": {
        "version": 1, "unknown": [], "rest": {"after": 1, "text": None}, "nothing": None, "waiting": [], "look": 5, "failure": None, "losses": [],
        "facts": [{
            "kind": "loss", "channel": 0, "receiver": 1, "late": [LATE], "text": ["`audit` lost 1 of 4 values", f"  late: {LATE}"],
            "places": [{"place": 2, "line": 1, "actor": 1}, {"place": 5, "line": 1, "actor": 0}, {"place": 6, "line": 1, "actor": 1}],
        }],
    },
    "tasks_seen": {
        "times": True, "now": 50000, "places": [{"what": "Mutex::lock", "location": 0}, {"what": "", "location": 1}, {"what": "Sleep", "function": "shop::feed"}],
        "tasks": [
            {"name": "feed", "actor": 0, "polls": [[0, 5, 0, 1, 0, [2], 895, 2, "timer", None, 2], [900, 905, 2, 5, 0, [2]]]},
            {"name": "audit", "actor": 1, "polls": [[10, 20, 1, 2, 0, [0], 12090, 5, "task 2", 1, 0], [12100, None, 5, 6, 0, []]]},
            {"name": "backup", "polls": [[12080, 12095, 5, 5, 0, []]], "over": True},
            {"name": "idle", "polls": [[1, 2, 0, 0, 0, [0]]]},
        ],
    },
}
MARGIN, COLUMNS, HEAD, LANE = 14, 7, 18, 30

# Whether something is drawn at each of these points of the lanes.
COVERED = """(points => {
    const canvas = document.getElementById('lanes'), scale = canvas.width / canvas.clientWidth;
    return points.map(([x, y]) => canvas.getContext('2d').getImageData(Math.round(x * scale), Math.round(y * scale), 1, 1).data[3] > 0);
})"""


def lanes_of_tasks(tab, folder, journals):
    """A fact whose tasks were seen has lanes on the picture's axis, and one that has none leaves the page as it is."""
    opening.put(folder, "late.names", json.dumps(NAMES).encode())
    page = opening.page_of(folder, "late.journal", JOURNAL)
    opening.load(tab, page, 6)
    assert not tab.run("document.getElementById('lanes').hidden")
    width = tab.run("document.getElementById('lanes').clientWidth")
    column = (width - MARGIN - GUTTER) / COLUMNS

    def at(place):
        return GUTTER + (place + 0.5) * column

    texts = {text: (x, y) for text, x, y, _ in drawn(tab, "lanes")}
    assert set(texts) >= {"what tasks did", "feed", "audit", "backup", "timer", "Mutex::lock, src/db.rs:40"}, texts
    assert "idle" not in texts, texts
    assert abs(texts["Mutex::lock, src/db.rs:40"][0] - at(2.25)) < 4, (texts, at(2.25))
    assert texts["feed"][1] < texts["audit"][1] < texts["backup"][1], texts
    middles = [HEAD + (lane + 1) * LANE - LANE / 2 + 4 for lane in range(3)]
    boxes = {(0, 0.75): True, (0, 4): True, (1, 1.9): True, (1, 4): False, (2, 5.5): True, (2, 4): False, (2, 5.1): False}
    # A box is ten points high, and a line two: four points above its middle there is the box alone.
    points = [[at(place), middles[lane] - 4] for lane, place in boxes]
    assert tab.run(f"{COVERED}({json.dumps(points)})") == list(boxes.values()), (points, boxes)
    # The arrow stands between the backup's lane and the audit's.
    between = (middles[1] + middles[2]) / 2
    assert tab.run(f"{COVERED}({json.dumps([[at(5.5), between], [at(5.25), between]])})") == [True, False]
    tab.picture(f"{folder}/lanes.png")
    bare = {key: value for key, value in NAMES.items() if key != "tasks_seen"}
    opening.put(folder, "bare.names", json.dumps(bare).encode())
    opening.load(tab, opening.page_of(folder, "bare.journal", JOURNAL), 6)
    assert tab.run("document.getElementById('lanes').hidden")


TESTS = [lanes_of_tasks]

"""The colours of the drawings, in the light and in the dark."""
import os
import re

import native
import opening

STYLE = os.path.join(native.TOP, "page", "src", "style.css")

# Values that a receiver can read, and values that it has lost, in the picture and in the strip; and the line of its life.
DRAWN = [("picture", "lag"), ("picture", "unread"), ("picture", "alive"), ("strip", "unread"), ("strip", "lag")]

# How many pixels of a canvas have a colour.
COUNT = """((name, colour) => {{
    const canvas = document.getElementById(name);
    const {{ data }} = canvas.getContext('2d').getImageData(0, 0, canvas.width, canvas.height);
    const [red, green, blue] = colour.match(/[0-9a-f]{{2}}/g).map(part => parseInt(part, 16));
    let count = 0;
    for (let i = 0; i < data.length; i += 4) if (data[i] === red && data[i + 1] === green && data[i + 2] === blue) count++;
    return count;
}})('{}', '{}')"""


def colours():
    """The colours that the style sheet names, in the light and in the dark."""
    with open(STYLE, encoding="utf-8") as file:
        light, dark = re.findall(r":root \{(.*?)\}", file.read(), re.S)
    return [dict(re.findall(r"--([\w-]+): (#[0-9a-f]{6});", part)) for part in (light, dark)]


def counts(tab, named):
    return [tab.run(COUNT.format(canvas, named[name])) for canvas, name in DRAWN]


def drawn_in(tab, wanted, unwanted):
    """Checks that the drawings have the colours of one kind and none of the other. Returns their pixels, to compare."""
    tab.wait(COUNT.format("picture", wanted["lag"]) + " > 0")
    assert min(counts(tab, wanted)) > 100, counts(tab, wanted)
    assert counts(tab, unwanted) == [0] * len(DRAWN), counts(tab, unwanted)
    return tab.run("['strip', 'picture', 'cursor'].map(name => document.getElementById(name).toDataURL())")


def dark_colours(tab, folder, journals):
    """The drawings follow the system into the dark and out of it, as if they had been opened there."""
    light, dark = colours()
    path = opening.page_of(folder, "dark_colours.journal", native.record(b"broadcast 4\n" + b"0 0 send 0 1\n" * 20))
    opening.load(tab, path, 9)
    tab.wait(COUNT.format("strip", light["unread"]) + " > 0")
    first = drawn_in(tab, light, dark)
    tab.prefer("dark")
    followed = drawn_in(tab, dark, light)
    opening.load(tab, path, 9)
    tab.wait(COUNT.format("strip", dark["unread"]) + " > 0")
    assert drawn_in(tab, dark, light) == followed, "opened in the dark it is drawn otherwise"
    tab.prefer("light")
    assert drawn_in(tab, light, dark) == first, "it doesn't come back to the light as it was"

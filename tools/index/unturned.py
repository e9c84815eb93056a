"""The public functions of two lines or more that no edit changes."""
import os

from . import edit_places, items
from .crate import Crate, read_text
from .pages import crates_of, inner_name

# The functions that can have no edit, by the paths of their files and their names, with the reasons.
REASONS = "tools/index/without_edit.txt"


def reasons(top):
    """Why a function has no edit, by its file and name."""
    found = {}
    for number, line in enumerate(read_text(os.path.join(top, REASONS)).splitlines(), 1):
        name, _, why = line.partition(": ")
        if not line or line.startswith("#"):
            continue
        if not why or name in found:
            raise items.Refused(f"{REASONS}:{number}: {'it is there twice' if why else 'it gives no reason'}: {name}")
        found[name] = why
    return found


def public(crate):
    """The functions that other crates, or other files of the crate, can call, as (file, name, function)."""
    return [*crate.public(), *((file, inner_name(one), one) for file, one in crate.inner() if one.is_public)]


def unturned(top, crate):
    """How many public functions of two lines or more a crate has, and those that no edit changes: the number of their line, by file and name."""
    turned = edit_places.by_function(top, crate)
    found = [it for it in public(crate) if it[2].lines > 1]
    return len(found), {f"crates/{crate.name}/{file.path} {name}": file.text.count("\n", 0, one.start) + 1
                        for file, name, one in found if (file.path, one.start) not in turned}


def counted(top):
    """How many functions have an edit or a reason, and what is wrong: functions that have neither, and reasons that aren't needed."""
    count, found, why = 0, {}, reasons(top)
    for name in crates_of(top):
        number, places = unturned(top, Crate(top, name))
        count += number
        found.update(places)
    lacking = [(*name.split(" ", 1), line) for name, line in found.items() if name not in why]
    faults = [f"{path}:{line}: no edit changes {name}" for path, name, line in lacking]
    idle = [f"{REASONS}: it has an edit or one line, or is gone: {name}" for name in why if name not in found]
    return count - len(lacking), faults + idle

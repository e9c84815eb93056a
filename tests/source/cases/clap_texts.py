"""What `clap` writes of command lines: the kit's port follows version 4.6.7, and cargo builds the program of 4.0.32, which Debian has. Their texts
differ in the ways of WORDS, and in what they suggest. Statuses and streams are the same.
"""
import re

# Each way in which the two have other words: its name, those of 4.6.7, and those of 4.0.32. The words of a command line may have any bytes.
WORDS = (
    ("a command that there isn't", rb"\Aerror: unrecognized subcommand '(.*?)'(?=\n\n)", rb"error: The subcommand '\1' wasn't recognized"),
    ("a missing argument", rb"\Aerror: the following required arguments", rb"error: The following required arguments"),
    ("an argument too many", rb"\Aerror: unexpected argument '(.*?)' found(?=\n\n)",
     rb"error: Found argument '\1' which wasn't expected, or isn't valid in this context"),
    ("a value too many", rb"\Aerror: unexpected value '(.*?)' for '([^']*)' found; no more were expected(?=\n\n)",
     rb"error: The value '\1' was provided to '\2' but it wasn't expecting any more values"),
    ("a flag given twice", rb"\Aerror: the argument '([^']*)' cannot be used multiple times(?=\n\n)",
     rb"error: The argument '\1' was provided more than once, but cannot be used multiple times"),
    ("a flag as a value", rb"\n\n  tip: to pass '(.*?)' as a value, use '-- \1'(?=\n\n)",
     rb"\n\n  If you tried to supply '\1' as a value rather than a flag, use '-- \1'"),
    ("a command behind dashes", rb"\n\n  tip: subcommand '(\w+)' exists; to use it, remove the '--' before it(?=\n\n)",
     rb"\n\n  If you tried to supply '\1' as a subcommand, remove the '--' before it."),
    ("a flag before its command", rb"\n\n  tip: '(\w+) (--\w+)' exists(?=\n\n)", rb"\n\n  Did you mean to put '\2' after the subcommand '\1'?"),
    ("the help of help", rb"(Usage: ttd help \[COMMAND\]\.\.\.)\n\nFor more information, try '--help'\.\n\Z", rb"\1\n"),
    ("where to find more", rb"For more information, try '--help'\.\n\Z", rb"For more information try '--help'\n"),
    ("the help of a flag", rb"(  -h, --help +Print help)(?=\n)", rb"\1 information"),
)
# The usage of `record` in an error: 4.0.32 names the flags that were given where 4.6.7 has `[OPTIONS]`, and leaves that out behind a file.
USAGE, OF_RECORD = "the flags of a usage", rb"Usage: ttd record (?:\[OPTIONS\] |--threads |--help )*<FILE>(?=\n\n)"
# What a paragraph begins with that suggests something. The two ask for another likeness of words (Jaro, and Jaro and Winkler), so one may suggest what
# the other doesn't. 4.0.32 also says how to give a word that isn't a command.
SUGGESTS = rb"\n\n  (?:tip: (?:a|some) similar |Did you mean |If you believe you received this message in error, ).*?(?=\n\n)"
SUGGESTION = "a suggestion"
# With a suggested flag the paragraph of one that isn't there is left out.
OF_FLAGS = rb"\n\n  If you tried to supply '-.*?(?=\n\n)"


def in_words_of_debian(text):
    """The text of 4.6.7 in the words of 4.0.32, and the names of the ways in which it differs."""
    ways = []
    for name, pattern, words in WORDS:
        text, count = re.subn(pattern, words, text, flags=re.DOTALL)
        ways += [name] * (count > 0)
    return text, ways


def without_suggestions(text):
    """A text without what is suggested, and without what a suggested flag changes besides."""
    found = re.findall(SUGGESTS, text, re.DOTALL)
    return re.sub(SUGGESTS, b"", text, flags=re.DOTALL), any(b"'--" in it.split(b"re-running")[0] for it in found), bool(found)


def ways(kit, cargo):
    """The names of the ways in which the texts of the two differ, or None where they differ in another one."""
    text, names = in_words_of_debian(kit)
    if text == cargo:
        return names
    if re.findall(OF_RECORD, text) != re.findall(OF_RECORD, cargo):
        text, cargo, names = re.sub(OF_RECORD, b"", text), re.sub(OF_RECORD, b"", cargo), [*names, USAGE]
    if text == cargo:
        return names
    (text, has_flag, suggests), (other, other_has_flag, other_suggests) = map(without_suggestions, (text, cargo))
    if has_flag or other_has_flag:
        text, other = (re.sub(OF_FLAGS, b"", it, flags=re.DOTALL) for it in (text, other))
    return [*names, SUGGESTION] if text == other and (suggests or other_suggests) else None

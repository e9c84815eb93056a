"""Refuses the forms that Rattle and Rust both accept and that mean something else, or for which there is no proof."""
from . import marks, shapes, words


def judge(code):
    """The faults of a file's code. It looks at the Rust, whatever the eraser has made of the source."""
    for i, token in enumerate(code.tokens):
        for rule in (words.word, *words.RULES.get(token.text, ()), *shapes.RULES.get(token.text, ())):
            if why := rule(code, i):
                yield marks.Fault(token.line, why)

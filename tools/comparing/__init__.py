"""The comparison of what two revisions promise, for tools/clauses: `revisions.py` reads a revision's statements, those of specs/ by `specs.py`, and
`differences.py` compares them.
"""

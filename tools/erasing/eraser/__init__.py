"""The eraser: it makes Rust source of the proved Rattle sources, with their contracts as comments.

It isn't trusted. restoring.py and judging/ share no code with it, and show that what it wrote is the proved text.
"""

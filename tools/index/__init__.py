"""The index of what is proved, docs/proof/index/: each public function with its contract, the definitions that it names, and its edits.

`made` in pages.py makes it from crates/ and the edits. `./build index` writes it.
"""

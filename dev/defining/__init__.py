"""The parts of dev/definitions and of dev/check docs that know definitions.

items.py has the definitions and calls of a file with their texts, words.py the names in these, tree.py what a file
imports and what a name means, and tests/ the tests.
"""

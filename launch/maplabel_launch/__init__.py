"""The launcher: proves and builds the program where that is due, and runs it.

It stands on Python's standard library alone, so that it runs where nothing else of the repository
is there; what it can tell of a refusal beyond that comes from `maplabel_kit`, where that is found.
"""

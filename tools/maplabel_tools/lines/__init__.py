"""Names along lines: a feature for each good stretch of a named line, and the classes and fonts for
them.
"""

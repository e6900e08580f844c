"""The report on a map under a style."""

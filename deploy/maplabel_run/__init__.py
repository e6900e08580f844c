"""What keeps a server and its edits: the parts of `deploy/run`, `save`, `stop` and `style`."""

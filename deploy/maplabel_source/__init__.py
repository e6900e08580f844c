"""A served map that follows its source: what `deploy/sync` and `deploy/postgis/follow.py` share."""

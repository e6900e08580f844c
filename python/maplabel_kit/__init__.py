"""What the scripts of this repository share; python/README.md tells each name."""

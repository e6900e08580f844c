"""Random cases of all commands, and how they are run and compared."""

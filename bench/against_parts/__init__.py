"""The workloads of bench/against, how they are run, and what is owed for them."""

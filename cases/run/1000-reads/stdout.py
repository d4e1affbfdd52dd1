#!/usr/bin/python3
"""The run of an empty document whose one reader makes 1,000 reads."""
reads = ["read floor 0 prefix 0 total 0"] * 1000
lines = ["history 0", "reader 0 length 0", *reads, "final floor 0 prefix 0 total 0", "table 0", "total 0"]
print("\n".join(lines))

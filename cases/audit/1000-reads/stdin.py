#!/usr/bin/python3
"""A run of an empty document whose reader makes 1,000 reads."""
document = '{"version":1,"top":1,"links":[],"groups":[],"reporters":[],"script":[]}'
readers = ["reader 0 length 0", *["read floor 0 prefix 0 total 0"] * 1000, "final floor 0 prefix 0 total 0"]
lines = ["history 0", *readers, "table 0", "total 0"]
print(len(document), document, sep="\n", end="")
print("\n".join(lines))

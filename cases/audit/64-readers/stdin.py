#!/usr/bin/python3
"""A run of an empty document with 64 readers."""
document = '{"version":1,"top":1,"links":[],"groups":[],"reporters":[],"script":[]}'
readers = [line for number in range(64) for line in (f"reader {number} length 0", "final floor 0 prefix 0 total 0")]
lines = ["history 0", *readers, "table 0", "total 0"]
print(len(document), document, sep="\n", end="")
print("\n".join(lines))

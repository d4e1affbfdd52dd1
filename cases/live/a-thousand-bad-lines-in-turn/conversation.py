#!/usr/bin/python3
"""A thousand bad lines, each answered before the next comes, and then a good one."""
print("document examples/shared-link.json\n<< examples/shared-link.txt")
for line in range(1, 1001):
    print(f"> bad {line}\n< refused line {line} cause 1")
print("> post\n< change 2\n< total 100\nend\nstatus 0")

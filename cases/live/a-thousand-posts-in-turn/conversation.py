#!/usr/bin/python3
"""A thousand posts, each answered before the next comes."""
print("document examples/shared-link.json\n<< examples/shared-link.txt")
print("> post\n< change 2\n< total 100\n" * 1000 + "end\nstatus 0")

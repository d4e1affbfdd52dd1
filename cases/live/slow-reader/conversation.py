#!/usr/bin/python3
"""Nobody reads the answers for a while: the program reads no more, and then loses none of them."""
LINES = 60_000
print("document examples/shared-link.json\n<< examples/shared-link.txt")
print(f"flood {LINES} bad")
print("".join(f"< refused line {line} cause 1\n" for line in range(1, LINES + 1)), end="")
print("memory 60\nend\nstatus 0")

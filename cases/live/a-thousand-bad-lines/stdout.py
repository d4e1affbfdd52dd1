#!/usr/bin/python3
from pathlib import Path

print((Path(__file__).parents[3] / "examples/shared-link.txt").read_text(), end="")
print("".join(f"refused line {line} cause 1\n" for line in range(1, 1001)), end="")
print("change 2\ntotal 100")

#!/usr/bin/python3
from pathlib import Path

print((Path(__file__).parents[3] / "examples/shared-link.txt").read_text(), end="")
print("change 1000002", "closings 1", "closing l0 at 60", sep="\n")
print("group g0 share 60 amount 60", "place 0 amount 60 closed by l0", sep="\n")
print("group g1 share 60 amount 40", "place 0 amount 40 closed by l0", sep="\n")
print("task t0 limit 60", "task t1 limit 40", "total 100", sep="\n")

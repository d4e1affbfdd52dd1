#!/usr/bin/python3
"""The table of 1,024 groups that ask for nothing: none is stopped."""
GROUPS = range(1024)
print("table 0", "link l0 load 0", sep="\n")
for k in GROUPS:
    print(f"group g{k} share 1 amount 0", "place 0 amount 0 open", sep="\n")
for k in GROUPS:
    print(f"task t{k} limit 0")
print("total 0")

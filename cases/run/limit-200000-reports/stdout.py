#!/usr/bin/python3
"""The run of 200,000 reports of one reporter, whose one reader reads at the end alone."""
demands = [1] * 199999 + [7]
print("history 200000")
for at, demand in enumerate(demands):
    print(f"report {at} r0 t0 {demand}")
print("reporter r0 sent 200000", "reader 0 length 200000", sep="\n")
print("final floor 200000 prefix 200000 total 7", "table 200000", "link l0 load 7", sep="\n")
print("group g0 share 9 amount 7", "place 0 amount 7 open", "task t0 limit 7", "total 7", sep="\n")

#!/usr/bin/python3
"""The table of 4,096 links that nobody uses."""
print("table 0")
for k in range(4096):
    print(f"link l{k} load 0")
print("total 0")

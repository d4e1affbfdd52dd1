#!/usr/bin/python3
"""A script of 199,999 reports, so that the second sample is one too many."""
import json

job = {"name": "j0", "task": [[0, 0], [100, 100]], "tasks": [{"name": "t0", "reporter": "r0"}]}
paths = [[{"weight": 1, "links": ["l0"]}]]
group = {"name": "g0", "from": "a", "to": "b", "paths": paths, "users": [{"name": "u0", "jobs": [job]}]}
document = json.dumps({
    "version": 1,
    "top": 100,
    "links": [{"name": "l0", "from": "a", "to": "b", "capacity": 100}],
    "groups": [group],
    "reporters": ["r0"],
    "script": [{"reporter": "r0", "task": "t0", "demand": 80}] * 199_999,
})
print(f"{len(document)}\n{document}r0 t0 1\nr0 t0 1")

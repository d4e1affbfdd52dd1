#!/usr/bin/python3
"""A document that names 4,096 closings of a link that nobody uses."""
import json

link = {"name": "l0", "from": "a", "to": "b", "capacity": 1}
closings = [{"link": "l0", "share": 0}] * 4096
members = {"version": 1, "top": 1, "links": [link], "groups": [], "reporters": [], "script": []}
print(json.dumps(members | {"closings": closings}))

#!/usr/bin/python3
"""4,097 links that nobody uses."""
import json

links = [{"name": f"l{k}", "from": "a", "to": "b", "capacity": k} for k in range(4097)]
members = {"version": 1, "top": 1, "links": links, "groups": [], "reporters": []}
print(json.dumps(members | {"script": []}))

#!/usr/bin/python3
"""A thousand bad lines, and then a good one."""
from pathlib import Path

document = (Path(__file__).parents[3] / "examples/shared-link.json").read_text()
print(len(document), document, sep="\n", end="")
print("demand r0 t1 -40\n" * 1000 + "post")

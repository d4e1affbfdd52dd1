#!/usr/bin/python3
"""A million lines of one task, and a post behind them."""
from pathlib import Path

document = (Path(__file__).parents[3] / "examples/shared-link.json").read_text()
print(len(document), document, sep="\n", end="")
print("".join(f"demand r0 t1 {k % 100}\n" for k in range(999_999)), end="")
print("demand r0 t1 40", "post", sep="\n")

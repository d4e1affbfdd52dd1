#!/usr/bin/python3
"""A line of 64 MiB, a good one, and as many bytes again, to the end and without a line feed."""
import sys
from pathlib import Path

document = (Path(__file__).parents[3] / "examples/shared-link.json").read_bytes()
much = b"post " * (2**26 // 5 + 1)
sys.stdout.buffer.write(b"%d\n%s%s\npost\n%s" % (len(document), document, much, much))

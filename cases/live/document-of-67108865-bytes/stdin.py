#!/usr/bin/python3
"""The document of the Shared link, with spaces behind it up to 67,108,865 bytes."""
import sys
from pathlib import Path

document = (Path(__file__).parents[3] / "examples/shared-link.json").read_bytes()
sys.stdout.buffer.write(b"67108865\n" + document.ljust(67108865) + b"post\n")

#!/usr/bin/python3
"""The document of the Shared link, with spaces behind it up to 67,108,864 bytes."""
import sys
from pathlib import Path

document = (Path(__file__).parents[3] / "examples/shared-link.json").read_bytes()
sys.stdout.buffer.write(b"67108864\n" + document.ljust(67108864) + b"post\n")

#!/usr/bin/python3
"""The longest input: as many spaces as bytes are read."""
print(" " * 67_108_864, end="")

#!/usr/bin/python3
"""A byte more than is read."""
print(" " * 67_108_865, end="")

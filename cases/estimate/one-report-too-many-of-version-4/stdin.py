#!/usr/bin/python3
"""A script of 4,194,303 reports, so that the second sample is one too many."""
from large import REPORT, document, one_group, parts, repeated, write

whole = document(groups=one_group(), script=repeated(REPORT, 4194303))
write(parts(whole, b"r0 t0 1\nr0 t0 1\n"))

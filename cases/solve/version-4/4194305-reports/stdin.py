#!/usr/bin/python3
"""4,194,305 reports, one more than version 4 has."""
from large import REPORT, document, one_group, repeated, write

write(document(groups=one_group(), script=repeated(REPORT, 4194305)))

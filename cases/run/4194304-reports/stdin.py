#!/usr/bin/python3
"""4,194,304 reports of one task."""
from large import REPORT, document, one_group, repeated, write

write(document(groups=one_group(), script=repeated(REPORT, 4194304)))

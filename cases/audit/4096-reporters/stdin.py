#!/usr/bin/python3
"""A run of 4,096 reporters who send nothing."""
from large import document, listed, numbered, write, write_lines

whole = document(reporters=listed(b'"r#"', 4096))
write(b"%d\n" % len(whole), whole)
write_lines(
    "history 0",
    numbered(b"reporter r# sent 0\n", 4096),
    "reader 0 length 0",
    "final floor 0 prefix 0 total 0",
    "table 0",
    "link l0 load 0",
    "total 0",
)

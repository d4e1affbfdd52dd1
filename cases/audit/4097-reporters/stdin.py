#!/usr/bin/python3
"""A document of 4,097 reporters, whatever stands behind it."""
from large import document, listed, parts, write

write(parts(document(reporters=listed(b'"r#"', 4097)), b"history 0\n"))

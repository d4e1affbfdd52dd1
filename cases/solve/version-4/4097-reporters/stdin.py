#!/usr/bin/python3
"""4,097 reporters, one more than version 4 has."""
from large import document, listed, write

write(document(reporters=listed(b'"r#"', 4097)))

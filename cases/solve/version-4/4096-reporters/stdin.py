#!/usr/bin/python3
"""4,096 reporters who report nothing."""
from large import document, listed, write

write(document(reporters=listed(b'"r#"', 4096)))

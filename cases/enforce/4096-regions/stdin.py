#!/usr/bin/python3
"""4,096 reporters, of whom the last gets the first table."""
from large import document, listed, parts, write

whole = document(reporters=listed(b'"r#"', 4096))
write(parts(whole, b"post 0\nsend 4095\ndeliver 0\nreply 0\n"))

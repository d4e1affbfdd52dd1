#!/usr/bin/python3
"""A document of 60 MB, all of whose tasks have the right shape, without its last brace."""
from large import document, one_group, write

write(document(version=b"3", groups=one_group(1_500_000))[:-1])

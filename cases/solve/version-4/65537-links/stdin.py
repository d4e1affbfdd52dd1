#!/usr/bin/python3
"""65,537 links, one more than version 4 has."""
from large import LINK, document, listed, write

write(document(links=listed(LINK, 65537)))

#!/usr/bin/python3
"""65,536 links that nobody uses."""
from large import LINK, document, listed, write

write(document(links=listed(LINK, 65536)))

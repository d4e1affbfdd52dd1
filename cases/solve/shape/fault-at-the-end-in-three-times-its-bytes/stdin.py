#!/usr/bin/python3
"""A document of 60 MB, of whose shape all is right but the last entry of the script."""
from large import document, one_group, write

SCRIPT = b'[{"reporter":"r0","task":"t0"}]'
write(document(version=b"3", groups=one_group(1_500_000), script=SCRIPT))

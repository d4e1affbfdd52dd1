#!/usr/bin/python3
"""200,000 reports of one task, the last of which asks for 7."""
from large import reports, write

write(reports(200000))

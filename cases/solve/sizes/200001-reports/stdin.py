#!/usr/bin/python3
"""200,001 reports of one task, the last of which asks for 7."""
from large import reports, write

write(reports(200001))

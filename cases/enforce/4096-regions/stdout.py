#!/usr/bin/python3
"""Of 4,096 regions the last one has the empty table in force."""
from large import numbered, write_lines

write_lines("posted 0", "sent 0 prefix 0", "took 0 up 0", "acked 0")
write_lines(numbered(b"region # floor 0 acked 0 in force none\n", 4095))
write_lines("region 4095 floor 0 acked 0 in force 0", "settled 0")

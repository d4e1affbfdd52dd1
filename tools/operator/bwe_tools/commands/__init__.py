"""One module for each command: its name with `_` for `-`, and in it the click command `command`."""

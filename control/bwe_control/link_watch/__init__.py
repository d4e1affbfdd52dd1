"""The link watcher: reports the capacity of links by the devices and files that know it."""

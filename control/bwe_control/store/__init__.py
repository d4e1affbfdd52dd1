"""Stores with a history of revisions: one interface, SQLite and etcd behind it."""

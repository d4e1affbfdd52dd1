"""The operator's tools beside bwe: they read and write documents and tables, and hold no rule of
the allocation.
"""

"""The host agent: measures what tasks send, reports demands, and keeps tasks to their limits."""

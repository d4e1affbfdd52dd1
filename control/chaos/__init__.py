"""Chaos: faults on a running control plane, and a judge of what it promised meanwhile."""

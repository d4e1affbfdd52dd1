"""The control plane between hosts that report, operators, and hosts that keep to limits."""

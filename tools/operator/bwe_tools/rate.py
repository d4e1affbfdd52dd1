"""Amounts of kilobits per second in words that people read."""

from __future__ import annotations

UNITS = (("Tbit/s", 10**9), ("Gbit/s", 10**6), ("Mbit/s", 10**3))


def rate(kilobits: int) -> str:
    """A rate to four digits: `19.98 Gbit/s`, `100 kbit/s`, `0`."""
    if kilobits == 0:
        return "0"
    if kilobits < 0:
        return "-" + rate(-kilobits)
    for unit, size in UNITS:
        if kilobits >= size:
            value = kilobits / size
            return (f"{value:,.0f}" if value >= 1000 else f"{value:.4g}") + " " + unit
    return f"{kilobits} kbit/s"


def tenths_of_percent(part: int, whole: int) -> int:
    """A part of a whole in tenths of a percent, rounded down: 1000 only where nothing is left."""
    return part * 1000 // whole


def percent(part: int, whole: int) -> str:
    """A part of a whole, rounded down to a tenth: `99.9 %`. A part of nothing is `-`."""
    if whole == 0:
        return "-"
    tenths = tenths_of_percent(part, whole)
    return f"{tenths // 10} %" if tenths % 10 == 0 else f"{tenths / 10:.1f} %"

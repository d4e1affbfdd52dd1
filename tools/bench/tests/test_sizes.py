"""The table and the picture of growth, on a program that is none."""

import math

import sizes


def program(tmp_path):
    path = tmp_path / "program"
    path.write_text("#!/bin/sh\ncat >/dev/null\nprintf 'table 0\\nclosing l0 at 1\\ntotal 0\\n'\n")
    path.chmod(0o755)
    return str(path)


def test_rows_have_what_was_measured(tmp_path):
    rows = list(sizes.measured({"one": program(tmp_path)}, "hub, 128", 1, 60.0))
    assert [(row.curve, row.size, row.closings) for row in rows] == [("hub", 128, 0 + 1)]
    assert rows[0].megabytes > 0 and rows[0].length > 10_000
    assert sizes.line_of(rows[0], True).startswith("| hub, 128 links | 0.1 M | 1 |")


def test_a_slow_program_is_asked_for_no_more_of_a_curve(tmp_path):
    rows = list(sizes.measured({"one": program(tmp_path)}, "own,", 1, 0.0))
    assert len(rows) == 1


def test_the_slope_is_that_of_the_larger_half():
    points = [(1, 5.0), (2, 5.0), *((size, 0.1 * size**1.5) for size in (4, 8, 16))]
    assert math.isclose(sizes.slope_of(points), 1.5)
    assert sizes.slope_of(points[:1]) is None


def test_a_picture_is_drawn(tmp_path):
    rows = [
        sizes.Row("bwe", curve, "x", size, 1, 1, size / 1000, 1.0)
        for curve in ("wan", "hub")
        for size in (100, 1_000, 10_000)
    ]
    sizes.draw(rows, str(tmp_path / "sizes.svg"))
    assert "slope 1.00" in (tmp_path / "sizes.svg").read_text()

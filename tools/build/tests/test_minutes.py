"""The table of what proofs took."""

import minutes

LOG = """fn a::b: proved
logic=proved functions={} sum=1
bwe: {} s, {} s of processors
"""


def test_the_logs_of_make_give_a_row_a_crate_the_dearest_first(tmp_path):
    for name, numbers in (("low", (2, 30, 60)), ("high", (3, 90, 120)), ("failed", None)):
        log = tmp_path / name / "out/prove.log"
        log.parent.mkdir(parents=True)
        log.write_text(LOG.format(*numbers) if numbers else "fn a::b: a goal is open\n")
    assert minutes.made(tmp_path)[2:] == [
        "| `high` | 3 | 1.5 | 2.0 |",
        "| `low` | 2 | 0.5 | 1.0 |",
        "| all | 5 | 2.0 | 3.0 |",
    ]
    assert minutes.seconds(tmp_path) == ["high 120", "low 60"]

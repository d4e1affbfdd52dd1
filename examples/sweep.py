#!/usr/bin/python3
"""examples/sweep.py [COUNT [DOCUMENT]]: many demand matrices of one document, by `bwe.Live`.

Each of COUNT matrices (1,000) has the demands of DOCUMENT (geant.json), each times a factor by
chance from 0 to 2. Written are how much the network carries of what is asked for, as percentiles
over the matrices, the links that close most often, and how long it took.
"""

import random
import sys
import time
from collections import Counter
from pathlib import Path

HERE = Path(__file__).resolve().parent
try:
    import bwe
except ImportError:  # not installed: the one of this repository
    sys.path.insert(0, str(HERE.parent / "tools" / "operator"))
    import bwe

PERCENTILES = (0, 10, 50, 90, 100)


def matrices(document: bwe.Document, count: int) -> list[dict[str, int]]:
    chance, demands = random.Random(1), document.demands()
    return [
        {task: round(demand * 2 * chance.random()) for task, demand in demands.items()}
        for _ in range(count)
    ]


def main(words: list[str]) -> None:
    count = int(words[0]) if words else 1000
    document = bwe.read(words[1] if len(words) > 1 else HERE / "geant.json")
    chosen = matrices(document, count)
    carried, closed = [], Counter[str]()
    with bwe.Live(bwe.askable(document)) as live:
        start = time.monotonic()
        totals = [change.total for change in live.changes(chosen)]
        seconds = time.monotonic() - start
        # The same again, with whole tables.
        for matrix, table in zip(chosen, live.tables(chosen)):
            carried.append(100 * table.total / max(sum(matrix.values()), 1))
            closed.update(closing.link for closing in table.closings)
            assert table.total == totals[len(carried) - 1]
    carried.sort()
    print("percentile of matrices", *(f"{of:>6}" for of in PERCENTILES))
    shown = (carried[of * (count - 1) // 100] for of in PERCENTILES)
    print("% of the demand carried", *(f"{one:5.1f} " for one in shown))
    for link, times in closed.most_common(5):
        print(f"{link} closes in {times} of {count} matrices")
    print(f"{count} matrices in {seconds:.2f} seconds", file=sys.stderr)


if __name__ == "__main__":
    try:
        main(sys.argv[1:])
    except (bwe.Error, ValueError) as fault:
        sys.exit(f"sweep.py: {fault}")

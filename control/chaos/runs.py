"""Runs: each store played in a cage of its own, side by side, and then judged."""

from dataclasses import dataclass
from pathlib import Path

from chaos import cage, cluster
from chaos.judge import Judge
from chaos.programs import program
from chaos.record import Record, read_record
from chaos.verdict import Fault, Verdict

STORES = ("etcd", "sqlite")


@dataclass(frozen=True)
class Run:
    """What is to be played on some stores."""

    stores: tuple[str, ...]
    seconds: float
    seed: int
    rate: float  # reports a second
    root: Path  # the tree whose bwe-control is tried
    only: tuple[str, ...] = ()  # kinds of faults, all where none is named


@dataclass(frozen=True)
class Ending:
    """How the run of one store ended."""

    store: str
    status: int
    record: Record | None
    verdict: Verdict | None

    @property
    def is_legal(self) -> bool:
        return self.status == 0 and self.verdict is not None and not self.verdict.faults

    def lines(self) -> list[str]:
        if self.verdict is None:
            return [f"{self.store}: the run itself ended with status {self.status}"]
        return [f"{self.store}: {line}" for line in self.verdict.lines()]

    def time_of(self, fault: Fault) -> float:
        """Seconds from the begin of the record to the transaction of a fault."""
        assert self.record is not None
        behind = [it.at for it in self.record.transactions if it.revision >= fault.revision]
        times = behind or [self.record.transactions[-1].at]
        return times[0] - self.record.transactions[0].at


def check(stores: tuple[str, ...]) -> None:
    """Raises NotHere where this machine lacks what a run needs."""
    cage.check()
    program("bwe")
    program("bwe_live")
    if "etcd" in stores:
        cluster.check()


def play_and_judge(run: Run, folder: Path) -> list[Ending]:
    """Plays on all stores of a run at once; each leaves its record in a folder of its name."""
    plays = []
    for store in run.stores:
        (folder / store).mkdir(parents=True)
        numbers = [str(run.seconds), str(run.seed), str(run.rate)]
        plays.append(["play", store, *numbers, str(run.root), str(folder / store), *run.only])
    statuses = cage.run_inside(plays)
    return [
        ending_of(store, status, folder / store)
        for store, status in zip(run.stores, statuses, strict=True)
    ]


def ending_of(store: str, status: int, folder: Path) -> Ending:
    if status != 0:
        return Ending(store, status, None, None)
    record = read_record(folder)
    return Ending(store, status, record, Judge().judge(record))

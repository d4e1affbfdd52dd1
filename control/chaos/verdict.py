"""What the judge says: each fault with the promise that it breaks and where it stands."""

from dataclasses import dataclass, field


@dataclass(frozen=True, order=True)
class Fault:
    """A promise that was broken; revision 0 where it has none."""

    revision: int
    promise: int
    kind: str
    text: str

    def line(self) -> str:
        return f"promise {self.promise} at revision {self.revision}: {self.kind}: {self.text}"


@dataclass
class Verdict:
    """All faults that were found, and how much was looked at."""

    faults: list[Fault] = field(default_factory=list)
    counts: dict[str, int] = field(default_factory=dict)

    def fault(self, promise: int, revision: int, kind: str, text: str) -> None:
        self.faults.append(Fault(revision, promise, kind, text))

    def count(self, what: str, more: int = 1) -> None:
        self.counts[what] = self.counts.get(what, 0) + more

    def lines(self, most: int = 20) -> list[str]:
        """The first faults by revision, then what was looked at."""
        faults = sorted(self.faults)
        shown = [it.line() for it in faults[:most]]
        if len(faults) > most:
            shown.append(f"and {len(faults) - most} faults more")
        counted = ", ".join(f"{number} {what}" for what, number in sorted(self.counts.items()))
        return [*shown, f"judged: {counted}", "legal" if not faults else "not legal"]

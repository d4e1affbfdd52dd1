"""Judges the logs of all who read and report: promises 2 and 3, and that posting goes on (4)."""

import bisect
from collections import defaultdict
from dataclasses import dataclass, field

from chaos.history_judge import judge_slice
from chaos.log import bytes_of
from chaos.record import Event, Record
from chaos.tables import Tables
from chaos.values import Posted, posted_of, slice_of
from chaos.verdict import Verdict


@dataclass(frozen=True)
class Block:
    """One block that `limits` printed."""

    at: float
    posted: bytes | None  # None: `posted none`
    slice: bytes | None

    def prefix(self) -> int:
        found = posted_of(self.posted) if self.posted else None
        return found.prefix if found else 0


@dataclass
class Call:
    """One call of a command, with all that it printed."""

    event: Event
    blocks: list[Block] = field(default_factory=list)
    said: list[tuple[float, str]] = field(default_factory=list)
    status: int | None = None  # None: it was still at work, or was killed

    @property
    def reporter(self) -> str:
        return self.event.text("reporter")


def block_of(event: Event) -> Block | None:
    """Reads a block; None where it is not of the form."""
    text = bytes_of(event.text("text"))
    first, _, rest = text.partition(b"\n")
    if not first.startswith(b"posted ") or not rest.startswith(b"limits "):
        return None
    posted = first.removeprefix(b"posted ")
    piece = rest.removeprefix(b"limits ")
    return Block(
        event.at,
        None if posted == b"none" else posted + b"\n",
        None if piece == b"none\n" else piece,
    )


class Calls:
    """All calls of a record, by their numbers."""

    def __init__(self, record: Record, verdict: Verdict) -> None:
        self.by_number: dict[int, Call] = {}
        for event in record.events:
            if event.what == "call":
                self.by_number[event.number("call")] = Call(event)
            elif event.what == "block":
                block = block_of(event)
                if block is None:
                    verdict.fault(2, 0, "form", f"a reader saw {event.text('text')!r}")
                else:
                    self.by_number[event.number("call")].blocks.append(block)
            elif event.what == "said":
                self.by_number[event.number("call")].said.append((event.at, event.text("line")))
            elif event.what == "end":
                self.by_number[event.number("call")].status = event.number("status")

    def of(self, command: str) -> list[Call]:
        return [it for it in self.by_number.values() if it.event.text("command") == command]


class Stood:
    """When each value of a key stood in the store."""

    def __init__(self, tables: Tables) -> None:
        self.tables = tables
        self.spans: defaultdict[tuple[str, bytes | None], list[tuple[int, int]]] = defaultdict(list)
        for key, revisions in tables.versions.revisions.items():
            ends = [*revisions[1:], 1 << 63]
            values = tables.versions.values[key]
            for start, end, value in zip(revisions, ends, values, strict=True):
                self.spans[key, value].append((start, end))
            self.spans[key, None].append((0, revisions[0]))

    def of(self, key: str, value: bytes | None) -> list[tuple[int, int]]:
        if key not in self.tables.versions.revisions:
            return [(0, 1 << 63)] if value is None else []
        return self.spans.get((key, value), [])

    def together(self, key: str, value: bytes | None, other: str, second: bytes | None) -> bool:
        """Whether there is a revision at which both stood."""
        return any(
            max(start, begin) < min(end, stop)
            for start, end in self.of(key, value)
            for begin, stop in self.of(other, second)
        )


class Floors:
    """The greatest posted prefix that anybody had seen by a time."""

    def __init__(self, seen: list[tuple[float, int]]) -> None:
        self.times: list[float] = []
        self.prefixes: list[int] = []
        for at, prefix in sorted(seen):
            self.times.append(at)
            self.prefixes.append(max(prefix, self.prefixes[-1] if self.prefixes else 0))

    def before(self, at: float) -> int:
        place = bisect.bisect_left(self.times, at) - 1
        return self.prefixes[place] if place >= 0 else 0


def posts_seen(record: Record) -> list[tuple[float, int]]:
    """When the recorder saw each post: whoever reads after that sees it."""
    found = []
    for it in record.transactions:
        posted = posted_of(it.puts["posted"]) if "posted" in it.puts else None
        if posted is not None:
            found.append((it.at, posted.prefix))
    return found


def told_of(call: Call, word: str) -> tuple[float, int] | None:
    """When a call said `put R` or `posted X`, and the number."""
    for at, line in call.said:
        words = line.split(" ")
        if words[0] == word and len(words) == 2 and words[1].isdigit():
            return at, int(words[1])
    return None


@dataclass
class ReaderJudge:
    record: Record
    tables: Tables
    verdict: Verdict

    def run(self) -> Calls:
        calls = Calls(self.record, self.verdict)
        seen = posts_seen(self.record)
        for call in calls.of("report"):
            told = told_of(call, "posted")
            seen += [told] if told else []
        for call in calls.of("limits"):
            seen += [(block.at, block.prefix()) for block in call.blocks]
        floors = Floors(seen)
        self.judge_readers(calls, floors)
        self.judge_reports(calls)
        self.judge_calm()
        return calls

    def judge_readers(self, calls: Calls, floors: Floors) -> None:
        stood, seen = Stood(self.tables), defaultdict[str, list[Block]](list)
        for call in calls.of("limits"):
            self.verdict.count("reads by the command", not call.event.more.get("follow"))
            who = call.event.text("who")
            # Two reads of one who are at work side by side at times: neither is behind the other.
            before = [it.prefix() for it in seen[who] if it.at < call.event.at]
            last = max(before, default=0)
            seen[who] += call.blocks
            for place, block in enumerate(call.blocks):
                self.verdict.count("blocks")
                prefix = block.prefix()
                if prefix < last:
                    text = f"{who} saw the prefix fall from {last} to {prefix}"
                    self.verdict.fault(2, last, "falls", text)
                last = max(prefix, last)
                floor = floors.before(call.event.at)
                if place == 0 and prefix < floor:
                    text = f"{who} read {prefix}, and {floor} had been seen before it began"
                    self.verdict.fault(3, floor, "stale read", text)
                self.judge_block(stood, call.reporter, block)

    def judge_block(self, stood: Stood, reporter: str, block: Block) -> None:
        key, prefix = f"limits/{reporter}", block.prefix()
        if not stood.together("posted", block.posted, key, block.slice):
            text = (
                f"{reporter} was shown {block.posted!r} with {block.slice!r}, never seen together"
            )
            self.verdict.fault(2, prefix, "unseen", text)
        if block.slice is not None:
            judge_slice(self.tables, self.verdict, prefix, reporter, block.slice)
        posted = posted_of(block.posted) if block.posted else None
        if posted is not None:
            self.judge_shown(reporter, posted, block.slice)

    def judge_shown(self, reporter: str, posted: Posted, piece: bytes | None) -> None:
        """The slice that is shown is that of the posted table, too."""
        document = self.tables.document(posted.document)
        found = slice_of(piece) if piece is not None else None
        if document is None or reporter not in document.names.reporters:
            return
        table = self.tables.due(document, posted.prefix)
        due = {task: table.limits[task] for task in document.names.of(reporter)}
        if found is None or found.limits != due:
            text = f"{reporter} was shown {found and found.limits}, due is {due}"
            self.verdict.fault(2, posted.prefix, "table", text)

    def judge_reports(self, calls: Calls) -> None:
        prefixes = {prefix for _, prefix in posts_seen(self.record)}
        known: defaultdict[str, set[bytes]] = defaultdict(set)
        for call in [*calls.of("report"), *calls.of("put")]:
            self.verdict.count("reports by the command", call.event.text("command") == "report")
            self.verdict.count("reports")
            value = bytes_of(call.event.text("value"))
            known[call.reporter].add(value)
            self.judge_put(call, value)
            self.judge_told(call, prefixes)
        for reporter, values in known.items():
            for revision, value in self.tables.versions.written(f"report/{reporter}"):
                if value not in values:
                    text = f"report/{reporter} became {value!r}, which nobody reported"
                    self.verdict.fault(3, revision, "put", text)

    def judge_put(self, call: Call, value: bytes) -> None:
        """What the client said of its put is so, and it was put once at most."""
        written = self.tables.versions.written(f"report/{call.reporter}")
        stands = [revision for revision, it in written if it == value]
        put = told_of(call, "put")
        if len(stands) > 1:
            self.verdict.fault(3, stands[1], "put twice", f"{value!r} stands at {stands}")
        if put is not None and put[1] not in stands:
            text = f"{call.reporter} was told put {put[1]}, and it stands at {stands}"
            self.verdict.fault(3, put[1], "put", text)
        if put is None and call.status in (0, 1):
            text = f"status {call.status} and no put: {call.event.text('value')!r}"
            self.verdict.fault(3, 0, "put", text)
        if put is None and call.status in (2, 3, 4) and stands:
            text = f"{call.reporter} was told it was not done, and it stands at {stands[0]}"
            self.verdict.fault(3, stands[0], "put", text)
        self.verdict.count("reports of unknown outcome", call.status == 5)

    def judge_told(self, call: Call, prefixes: set[int]) -> None:
        """A call that was told `posted X` has its report in it, and X was posted."""
        put, told = told_of(call, "put"), told_of(call, "posted")
        if told is None:
            return
        self.verdict.count("reports told posted")
        if put is None or told[1] < put[1]:
            self.verdict.fault(3, told[1], "told", f"posted {told[1]} does not hold {put}")
        if told[1] not in prefixes:
            self.verdict.fault(3, told[1], "told", f"posted {told[1]} was told and never posted")

    def judge_calm(self) -> None:
        for event in self.record.of_kind("calm"):
            self.verdict.count("calms")
            if not event.more["caught"]:
                text = f"no post of what was reported {event.more['seconds']} s after all was well"
                self.verdict.fault(4, event.number("revision"), "stopped", text)

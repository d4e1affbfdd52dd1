"""Makes histories for the tests of the judge: legal ones, into which a test puts one fault."""

from __future__ import annotations

from dataclasses import dataclass, field

from chaos.log import text_of
from chaos.programs import Programs
from chaos.record import Event, Record, Transaction
from chaos.scene import REPORTERS, document
from chaos.tables import Tables, tables_of


@dataclass
class Story:
    """A history as it grows, the store's keys, and the log of those who read and report."""

    programs: Programs
    transactions: list[Transaction] = field(default_factory=list)
    events: list[Event] = field(default_factory=list)
    state: dict[str, bytes] = field(default_factory=dict)
    clock: float = 0.0
    calls: int = 0

    @property
    def revision(self) -> int:
        return self.transactions[-1].revision if self.transactions else 0

    def tick(self) -> float:
        self.clock += 1.0
        return self.clock

    def write(self, puts: dict[str, bytes], deletes: tuple[str, ...] = ()) -> int:
        """One transaction; its revision."""
        it = Transaction(self.revision + 1, self.tick(), puts, deletes)
        self.transactions.append(it)
        self.state.update(puts)
        for key in deletes:
            self.state.pop(key)
        return it.revision

    def put_document(self, kind: str = "plain") -> int:
        text = document(kind)
        number = self.write({"document": text})
        self.accept(number, text)
        return number

    def accept(self, number: int, text: bytes) -> None:
        self.write({"leader": b"a1\n", "accepted": b"%d\n%b" % (number, text)})

    def tables(self) -> Tables:
        return tables_of(self.transactions, self.programs)

    def due(self, prefix: int) -> dict[str, bytes]:
        """What a good allocator writes for a prefix: the slices that change, and posted."""
        tables = self.tables()
        number = int(self.state["accepted"].split(b"\n")[0])
        it = tables.document(number)
        assert it is not None
        table, puts = tables.due(it, prefix), {}
        for reporter in REPORTERS:
            rows = "".join(f"task {t} limit {table.limits[t]}\n" for t in it.names.of(reporter))
            before = self.state.get(f"limits/{reporter}", b"").partition(b"\n")[2]
            if before != rows.encode() or f"limits/{reporter}" not in self.state:
                head = f"prefix {prefix} document {number}\n"
                puts[f"limits/{reporter}"] = (head + rows).encode()
        posted = f"prefix {prefix} document {number} total {table.total}\n"
        return {**puts, "posted": posted.encode(), "leader": b"a1\n"}

    def refuse(self, prefix: int) -> None:
        """Writes the refusals of a prefix where they changed."""
        tables, number = self.tables(), int(self.state["accepted"].split(b"\n")[0])
        it = tables.document(number)
        assert it is not None
        for reporter in REPORTERS:
            key, due = f"refused/{reporter}", tables.refusal(it, reporter, prefix)
            if due is not None and self.state.get(key) != due:
                self.write({"leader": b"a1\n", key: due})
            elif due is None and key in self.state:
                self.write({"leader": b"a1\n"}, (key,))

    def post(self) -> int:
        """What a good allocator does after it has read at the revision of now; its prefix."""
        prefix = self.revision
        self.refuse(prefix)
        self.write(self.due(prefix))
        return prefix

    def begin_call(self, command: str, who: str, reporter: str, **more: object) -> int:
        self.calls += 1
        what = {"call": self.calls, "command": command, "who": who, "reporter": reporter, **more}
        self.events.append(Event(self.tick(), "call", what))
        return self.calls

    def event(self, call: int, what: str, **more: object) -> None:
        self.events.append(Event(self.tick(), what, {"call": call, **more}))

    def report(self, reporter: str, value: bytes) -> int:
        """A client's report that is done, and told so."""
        call = self.begin_call("report", reporter, reporter, value=text_of(value))
        number = self.write({f"report/{reporter}": value})
        self.event(call, "said", line=f"put {number}")
        self.event(call, "end", status=0)
        return number

    def shown(self, reporter: str) -> str:
        """The block that a reader sees now."""
        piece = text_of(self.state.get(f"limits/{reporter}", b"none\n"))
        return f"posted {text_of(self.state.get('posted', b'none' + bytes([10])))}limits {piece}"

    def look(self, reporter: str, who: str = "reader") -> None:
        """A client's read, with its block."""
        call = self.begin_call("limits", who, reporter)
        self.event(call, "block", text=self.shown(reporter))
        self.event(call, "end", status=0)

    def record(self) -> Record:
        return Record(self.transactions, self.events)


def usual(programs: Programs) -> Story:
    """A legal history of some reports and posts, which has been read."""
    story = Story(programs)
    story.put_document()
    story.post()
    story.report("r0", b"demand t0 400000001\ndemand t3 300000001\n")
    story.report("r1", b"demand t1 300000001\nnonsense\n")
    story.post()
    story.look("r0")
    story.report("noc", b"capacity ab1 100000001\n")
    story.report("r0", b"demand t0 700000002\n")
    story.post()
    for reporter in REPORTERS:
        story.look(reporter)
    return story

"""Judges the history as a printed run (promise 5) and as events of regions (promise 6)."""

from dataclasses import dataclass

from chaos.epochs import Epoch
from chaos.programs import Programs, Table
from chaos.reader_judge import Block, Call
from chaos.reports import Line
from chaos.tables import Tables
from chaos.values import posted_of, slice_of
from chaos.verdict import Verdict

READS = 200  # of one reader in a run, at most
FOLLOWED = 600  # blocks of all regions in one text of events, at most
CUTS = 4  # texts of events for one document, each of which ends at another block


@dataclass
class RunJudge:
    tables: Tables
    programs: Programs
    verdict: Verdict

    def judge_run(self, epoch: Epoch, readers: list[list[Block]]) -> None:
        """The history of one document and what its readers saw is a legal run."""
        posted = [(epoch.places[it.prefix], it.total) for it in epoch.posts]
        blocks = [self.seen(epoch, blocks) for blocks in readers]
        reads = [thinned(posted, READS), *(thinned(it, READS) for it in blocks[:60] if it)]
        most = max(len(it) for it in reads)
        reads = [[*it, *[it[-1]] * (most - len(it))] for it in reads]
        document = epoch.script()
        table = self.programs.solve(document)
        assert isinstance(table, Table)
        text = run_text(epoch, table, reads)
        answer = self.programs.two_parts("audit", document, text.encode())
        self.verdict.count("runs audited")
        if answer != "legal\n":
            last = epoch.posts[-1].prefix
            self.verdict.fault(5, last, "audit", f"{answer.strip()} of the run up to here")

    def seen(self, epoch: Epoch, blocks: list[Block]) -> list[tuple[int, int]]:
        """The places and totals that one reader saw of a document."""
        found = []
        for block in blocks:
            posted = posted_of(block.posted) if block.posted else None
            if posted and posted.document == epoch.document.revision:
                if posted.prefix in epoch.places:
                    found.append((epoch.places[posted.prefix], posted.total))
        return found

    def judge_replay(self, text: str, epoch: Epoch) -> None:
        """What `replay` printed is an input of audit, legal, and ends with what is posted."""
        last = epoch.posts[-1].prefix
        status, answer = self.programs.ask("audit", text.encode())
        self.verdict.count("replays audited")
        if status != 0:
            self.verdict.fault(5, last, "replay", f"audit says {answer.strip()!r}")
        due = self.tables.due(epoch.document, last).text
        if not text.endswith(due.partition("\n")[2]):
            self.verdict.fault(5, last, "replay", "it does not end with the posted table")

    def judge_regions(self, epoch: Epoch, calls: list[Call]) -> None:
        """What a region that follows its limits has in force is what enforce says."""
        steps = followed(epoch, calls)
        for part in range(1, CUTS + 1):
            cut = steps[: len(steps) * part // CUTS][-FOLLOWED:]
            if cut:
                self.judge_events(epoch, cut)

    def judge_events(self, epoch: Epoch, steps: "list[tuple[str, Block | None]]") -> None:
        numbers = {name: place for place, name in enumerate(epoch.document.names.reporters)}
        events, sent = [], 0
        force: dict[str, Block | None] = {}
        for reporter, block in steps:
            region, force[reporter] = numbers[reporter], block
            if block is None:
                events.append(f"restart {region}\n")
                continue
            events += [f"post {epoch.places[block.prefix()]}\n", f"send {region}\n"]
            events += [f"deliver {sent}\n"]
            sent += 1
        answer = self.programs.two_parts("enforce", epoch.script(), "".join(events).encode())
        in_force = regions_of(answer)
        self.verdict.count("regions enforced", len(force))
        for reporter, block in force.items():
            due = in_force.get(numbers[reporter])
            found = slice_of(block.slice) if block and block.slice else None
            has = (
                None
                if block is None
                else (epoch.places[block.prefix()], dict(found.limits if found else {}))
            )
            if has != due:
                revision = block.prefix() if block else 0
                text = f"{reporter} has {has} in force, enforce says {due}"
                self.verdict.fault(6, revision, "enforce", text)


def thinned(reads: list[tuple[int, int]], most: int) -> list[tuple[int, int]]:
    """At most so many of them, evenly, with the last."""
    step = -(-len(reads) // most)
    return [*reads[:-1:step], reads[-1]]


def report_line(place: int, reporter: str, line: Line) -> str:
    word = "report" if line.kind == "demand" else "capacity"
    return f"{word} {place} {reporter} {line.name} {line.amount}\n"


def run_text(epoch: Epoch, table: Table, readers: list[list[tuple[int, int]]]) -> str:
    """The run text of a history, with the reads of each reader."""
    length = len(epoch.reports)
    lines = [f"history {length}\n"]
    lines += [report_line(place, *it) for place, it in enumerate(epoch.reports)]
    for name in epoch.document.names.reporters:
        sent = sum(who == name for who, _ in epoch.reports)
        lines.append(f"reporter {name} sent {sent}\n")
    for number, reads in enumerate(readers):
        lines.append(f"reader {number} length {length}\n")
        floor = 0
        for place, total in reads:
            lines.append(f"read floor {floor} prefix {place} total {total}\n")
            floor = max(floor, place)
        lines.append(f"final floor {floor} prefix {length} total {table.total}\n")
    return "".join(lines) + table.text


def followed(epoch: Epoch, calls: list[Call]) -> list[tuple[str, Block | None]]:
    """What regions took, in the order of prefixes; None where a region began again."""
    steps: list[tuple[int, float, str, Block | None]] = []
    for call in calls:
        if not call.event.more.get("follow") or call.reporter not in epoch.document.names.reporters:
            continue
        blocks = [it for it in call.blocks if is_of(epoch, it)]
        if blocks:
            steps.append((blocks[0].prefix(), blocks[0].at - 1e-6, call.reporter, None))
        steps += [(it.prefix(), it.at, call.reporter, it) for it in blocks]
    return [(reporter, block) for _, _, reporter, block in sorted(steps, key=lambda it: it[:3])]


def is_of(epoch: Epoch, block: Block) -> bool:
    posted = posted_of(block.posted) if block.posted else None
    return (
        posted is not None
        and posted.document == epoch.document.revision
        and posted.prefix in epoch.places
    )


def regions_of(text: str) -> dict[int, tuple[int, dict[str, int]] | None]:
    """What enforce says is in force in each region: the prefix and the limits."""
    found: dict[int, tuple[int, dict[str, int]] | None] = {}
    region = 0
    for line in text.splitlines():
        match line.split(" "):
            case ["region", number, *_, "force", prefix]:
                region = int(number)
                found[region] = None if prefix == "none" else (int(prefix), {})
            case ["task", name, "limit", amount]:
                held = found[region]
                if held is not None:
                    held[1][name] = int(amount)
    return found

"""The judge: reads the record of a run and says which promises were broken, and where."""

from collections import defaultdict
from dataclasses import dataclass, field

from chaos.epochs import epochs_of
from chaos.history_judge import HistoryJudge
from chaos.programs import Programs
from chaos.reader_judge import Block, Call, ReaderJudge
from chaos.record import Record
from chaos.run_judge import RunJudge
from chaos.tables import tables_of
from chaos.verdict import Verdict


@dataclass
class Judge:
    programs: Programs = field(default_factory=Programs)

    def judge(self, record: Record) -> Verdict:
        """Everything that can be said of a record."""
        verdict = Verdict()
        tables = tables_of(record.transactions, self.programs)
        history = HistoryJudge(tables, verdict)
        for it in record.transactions:
            history.take(it)
        calls = ReaderJudge(record, tables, verdict).run().of("limits")
        for event in record.of_kind("no replay"):
            verdict.fault(5, 0, "replay", event.text("text"))
        verdict.count("faults made", sum(1 for _ in record.of_kind("fault")))
        if verdict.faults:
            return verdict  # a run and regions are made of tables that are right
        runs = RunJudge(tables, self.programs, verdict)
        epochs = epochs_of(tables, record.transactions)
        for epoch in epochs:
            runs.judge_run(epoch, by_reader(calls))
            runs.judge_regions(epoch, calls)
        if record.replay is not None and epochs:
            runs.judge_replay(record.replay, epochs[-1])
        return verdict


def by_reader(calls: list[Call]) -> list[list[Block]]:
    """What each reader saw, over all of its calls.

    A call that began while another one of that reader was at work is of a reader of its own.
    """
    found: defaultdict[str, list[list[Block]]] = defaultdict(list)
    for call in calls:
        readers = found[call.event.text("who")]
        free = (it for it in readers if not it or it[-1].at < call.event.at)
        own = next(free, None)
        if own is None:
            own = []
            readers.append(own)
        own += call.blocks
    return [it for readers in found.values() for it in readers]

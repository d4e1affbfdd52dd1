"""The program `bwe-live` as a child: bytes in, whole answers out."""

from __future__ import annotations

import math
import os
import select
import subprocess
import time
from collections.abc import Iterable, Iterator
from itertools import islice
from pathlib import Path

from bwe_tools.document import ToolError
from bwe_tools.program import NoProgram, ProgramEnded, fault_of, find_program

PIECE = 1 << 18  # bytes read or written at once
CLOSE_SECONDS = 5.0
LAST_ROW = b"\ntotal "


class TimedOut(ToolError):
    """An answer did not come in time. Whether the reports before it count is unknown; the child is
    ended.
    """


class RefusedReport(ToolError):
    """The program refuses a report that it was sent: its cause is that of docs/FORMAT.md. The
    reports before and behind it count.
    """

    def __init__(self, cause: int) -> None:
        super().__init__(f"bwe-live refuses a report: cause {cause}")
        self.cause = cause


class Unsent:
    """Bytes that the child is still to get."""

    def __init__(self) -> None:
        self.left = memoryview(b"")

    def add(self, more: bytes) -> None:
        if more:
            self.left = memoryview(bytes(self.left) + more)


class LiveProgram:
    """One child, and in `first` the table that it wrote first. It is not to be used from two
    threads at once.
    """

    def __init__(self, document: bytes, program: Path | None, timeout: float | None) -> None:
        self.program = find_program("bwe-live") if program is None else program
        self.timeout = timeout
        self.ended: ToolError | None = None
        try:
            self.child = subprocess.Popen(
                [self.program], stdin=subprocess.PIPE, stdout=subprocess.PIPE, bufsize=0
            )
        except OSError as fault:
            raise NoProgram(f"{self.program} could not be run: {fault.strerror}") from None
        assert self.child.stdin is not None and self.child.stdout is not None
        self.input, self.output = self.child.stdin.fileno(), self.child.stdout.fileno()
        os.set_blocking(self.input, False)
        # What was received, of which so much was taken, and so much has no end of an answer.
        self.received, self.taken, self.searched = bytearray(), 0, 0
        (self.first,) = self.answers([b"%d\n" % len(document) + document], 1)

    def answers(self, questions: Iterable[bytes], ahead: int) -> Iterator[str]:
        """The answer to each question, which is rows with one `post` at their end.

        At most `ahead` questions are sent before the answer to the first of them is taken, many at
        a time. Where the caller stops early, the answers that are due are taken and left out.
        """
        waiting, unsent, due = iter(questions), Unsent(), 0
        try:
            while True:
                if 2 * due <= ahead:
                    more = list(islice(waiting, ahead - due))
                    unsent.add(b"".join(more))
                    due += len(more)
                if due == 0:
                    return
                due -= 1
                yield self.next_answer(unsent)
        finally:
            while due > 0 and self.ended is None:
                due -= 1
                self.next_answer(unsent)

    def next_answer(self, unsent: Unsent) -> str:
        """The next whole answer; what is not sent yet is sent as the child takes it."""
        if self.ended is not None:
            raise self.ended
        if unsent.left:
            self.write(unsent)
        until = None if self.timeout is None else time.monotonic() + self.timeout
        while (end := self.end_of_answer()) is None:
            self.wait(unsent, until)
        return self.take(end)

    def wait(self, unsent: Unsent, until: float | None) -> None:
        """Reads what comes next, and sends what the child takes; TimedOut at a time of the
        monotonic clock.
        """
        ready = select.poll()
        ready.register(self.output, select.POLLIN)
        if unsent.left:
            ready.register(self.input, select.POLLOUT)
        left = None if until is None else until - time.monotonic()
        if left is not None and left <= 0:
            self.kill()
            self.ended = TimedOut(f"bwe-live gave no answer within {self.timeout} seconds")
            raise self.ended
        for pipe, _ in ready.poll(None if left is None else math.ceil(1000 * left)):
            if pipe == self.output:
                self.read()
            else:
                self.write(unsent)

    def end_of_answer(self) -> int | None:
        """Where the first whole answer ends in what was received."""
        found = self.received.find(LAST_ROW, self.searched)
        end = self.received.find(b"\n", found + len(LAST_ROW)) if found >= 0 else -1
        if end >= 0:
            return end + 1
        # The last row may have come in part.
        self.searched = max(self.taken, len(self.received) - len(LAST_ROW)) if found < 0 else found
        return None

    def take(self, end: int) -> str:
        answer = self.received[self.taken : end].decode("ascii", "replace")
        self.taken = self.searched = end
        return answer

    def read(self) -> None:
        piece = os.read(self.output, PIECE)
        if not piece:
            status = self.child.wait()
            answer = self.received[self.taken :].decode("ascii", "replace")
            self.ended = fault_of(status, ["bwe-live"], answer, "the document")
            if status == 0:
                self.ended = ProgramEnded("bwe-live ended before it gave its answer", status)
            self.close()
            raise self.ended
        # What was taken goes only now, so that it is not moved for each answer.
        del self.received[: self.taken]
        self.searched -= self.taken
        self.taken = 0
        self.received += piece

    def write(self, unsent: Unsent) -> None:
        """Sends as much as the child takes."""
        try:
            sent = os.write(self.input, unsent.left[:PIECE])
        except BlockingIOError:
            return
        except BrokenPipeError:
            # The child has ended, and its output says why.
            sent = len(unsent.left)
        unsent.left = unsent.left[sent:]

    def kill(self) -> None:
        self.child.kill()
        self.child.wait()
        self.close()

    def close(self) -> None:
        """Ends the input, waits for the child, and ends it where it does not end by itself."""
        for pipe in (self.child.stdin, self.child.stdout):
            if pipe is not None:
                try:
                    pipe.close()
                except BrokenPipeError:
                    pass
        try:
            self.child.wait(CLOSE_SECONDS)
        except subprocess.TimeoutExpired:
            self.child.kill()
            self.child.wait()
        if self.ended is None:
            self.ended = ProgramEnded("bwe-live was closed before", 0)

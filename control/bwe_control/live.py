"""One `bwe-live` child: it has a document, takes reports, and says what they change."""

from __future__ import annotations

import os
import selectors
import subprocess
import time
from collections.abc import Callable, Iterable
from dataclasses import dataclass
from pathlib import Path

from bwe_control.errors import ControlError, Refused

TICK = 0.25  # seconds between two looks at whether the child does anything
CHUNK = 1 << 20
ODD = "what runs as bwe-live answers what bwe-live never does"


class LiveDied(ControlError):
    """The child has ended, or did nothing for too long; it is to be started anew."""


@dataclass(frozen=True)
class Answer:
    """What a post changed: the lines `task NAME limit X` of the tasks whose limit differs."""

    total: int
    task_lines: list[bytes]


class Live:
    """A child for one document. `beat` is called as long as it gets on; `stuck` is in seconds."""

    def __init__(
        self, program: Path, document: bytes, beat: Callable[[], None], stuck: float
    ) -> None:
        self._beat, self._stuck = beat, stuck
        try:
            self._child = subprocess.Popen(
                [program], stdin=subprocess.PIPE, stdout=subprocess.PIPE, bufsize=0
            )
        except OSError as fault:
            raise LiveDied(f"{program} could not be run: {fault.strerror}") from None
        assert self._child.stdin is not None and self._child.stdout is not None
        self._sink, self._source = self._child.stdin.fileno(), self._child.stdout.fileno()
        os.set_blocking(self._sink, False)
        try:
            self.first = _answer_of(self._exchange(b"%d\n%b" % (len(document), document)))
        except BaseException:
            self.close()
            raise

    @property
    def process(self) -> int:
        """The child's process id."""
        return self._child.pid

    def post(self, lines: Iterable[bytes]) -> Answer:
        """Hands it reports, and asks what they and those before change."""
        return _answer_of(self._exchange(b"".join([*lines, b"post\n"])))

    def _exchange(self, given: bytes) -> bytes:
        """Writes what is given and reads one whole answer, both as far as they go."""
        left, answer, watch = memoryview(given), bytearray(), _Progress(self._child.pid)
        with selectors.DefaultSelector() as both:
            both.register(self._source, selectors.EVENT_READ)
            both.register(self._sink, selectors.EVENT_WRITE)
            while not _is_whole(answer):
                ready = both.select(TICK)
                for key, _ in ready:
                    if key.fd == self._source:
                        self._read_into(answer)
                    else:
                        left = self._written(left)
                        if not left:
                            both.unregister(self._sink)
                if ready or watch.has_worked():
                    watch.restart()
                    self._beat()
                elif watch.seconds() > self._stuck:
                    raise LiveDied(f"bwe-live did nothing for {self._stuck:g} s")
        return bytes(answer)

    def _read_into(self, answer: bytearray) -> None:
        more = os.read(self._source, CHUNK)
        answer += more
        if not more:
            raise self._end(bytes(answer))

    def _written(self, left: memoryview) -> memoryview:
        try:
            return left[os.write(self._sink, left[:CHUNK]) :]
        except BlockingIOError:
            return left
        except BrokenPipeError:
            return left[len(left) :]  # why it has ended is in its answer

    def _end(self, answer: bytes) -> ControlError:
        """Why the answer ends early: the document is refused, or the child has died."""
        status = self._child.wait()
        if status in (3, 8):
            return Refused(answer.decode("ascii", "replace").strip())
        if status < 0:
            return LiveDied(f"bwe-live was ended by signal {-status}")
        return LiveDied(f"bwe-live has ended with exit status {status}")

    def close(self) -> None:
        """Ends the child; a second call does nothing."""
        self._child.kill()
        self._child.wait()
        for pipe in (self._child.stdin, self._child.stdout):
            if pipe is not None:
                pipe.close()


class _Progress:
    """Whether a process gets processor time, and since when it does not."""

    def __init__(self, process: int) -> None:
        self._path, self._used = Path(f"/proc/{process}/stat"), -1
        self.restart()

    def restart(self) -> None:
        self._since = time.monotonic()

    def seconds(self) -> float:
        return time.monotonic() - self._since

    def has_worked(self) -> bool:
        try:
            fields = self._path.read_bytes().rpartition(b")")[2].split()
            used = int(fields[11]) + int(fields[12])
        except (OSError, IndexError):
            return False
        before, self._used = self._used, used
        return before != used


def _is_whole(answer: bytearray) -> bool:
    """Whether the last line is whole and is that of the total, with which each answer ends."""
    if not answer.endswith(b"\n"):
        return False
    return answer.startswith(b"total ", answer.rfind(b"\n", 0, -1) + 1)


def _answer_of(text: bytes) -> Answer:
    first = text.find(b"\ntask ")
    last = text.rfind(b"\ntotal ")
    total = text[last + 7 : -1]
    if text.startswith(b"refused line"):
        raise LiveDied("bwe-live refused a line that it has to take")
    if not total.isdigit():
        raise LiveDied(ODD)
    return Answer(int(total), text[first + 1 : last].split(b"\n") if 0 <= first < last else [])

#!/usr/bin/python3
"""tools/check/conversations.py PROGRAM FILE..: holds conversations with a program over two pipes.

A conversation is a file of lines, of which each is done before the next begins. What is sent next
is sent once all that is expected before it has come, so an answer that is kept back is a fault.

    # TEXT           says something to the reader of the file
    document FILE    sends the file's length in bytes, a line feed and the file; FILE lies beside
                     the conversation, or else is named from the top of the repository
    > TEXT           sends TEXT and a line feed
    >> TEXT          sends TEXT without a line feed
    >. TEXT          sends TEXT and a line feed, one byte at a time
    much N TEXT      sends TEXT so many times
    flood N TEXT     sends TEXT and a line feed so many times, and reads no answer meanwhile, until
                     the program has taken nothing for a while, as it waits for a slow reader
    < TEXT           expects TEXT and a line feed
    << FILE          expects the bytes of FILE
    nothing          expects that no byte comes for a while
    memory N         expects that the program has had at most N megabytes so far
    end              closes the program's input
    hang up          closes the end of the pipe from which the answers are read
    status N         expects that the program ends with this status, and has written no more

A script NAME.py in the place of the file writes it. Where what is expected has not come after 20
seconds, or as many as SECONDS_TO_WAIT says, one sentence says what did come.
"""

import os
import re
import select
import subprocess
import sys
import tempfile
import time
from pathlib import Path

TOP = Path(__file__).resolve().parents[2]
SECONDS = float(os.environ.get("SECONDS_TO_WAIT", "20"))
A_WHILE, BETWEEN_BYTES, PIECE = 0.2, 0.001, 65_536


class Fault(Exception):
    """What the program did is not what the conversation says."""


class Talk:
    """A program that runs, with a pipe to it and one from it."""

    def __init__(self, program, words=()):
        self.told = tempfile.TemporaryFile()
        self.running = subprocess.Popen(
            [program, *words],
            stdin=subprocess.PIPE,
            stdout=subprocess.PIPE,
            stderr=self.told,
            bufsize=0,
        )
        self.source, self.sink = self.running.stdin, self.running.stdout
        self.come, self.has_ended = bytearray(), False
        for pipe in (self.source, self.sink):
            os.set_blocking(pipe.fileno(), False)

    def __enter__(self):
        return self

    def __exit__(self, *_):
        if self.running.poll() is None:
            self.running.kill()
        self.running.wait()
        for file in (self.source, self.sink, self.told):
            file.close()

    def step(self, until, given=b""):
        """Reads what comes, and writes a part of what is given: how much of it was taken."""
        sinks = [self.source] if given else []
        sources = [] if self.has_ended or self.sink.closed else [self.sink]
        left = max(until - time.monotonic(), 0)
        if not sources and not sinks:
            time.sleep(min(left, 0.01))
            return 0
        readable, writable, _ = select.select(sources, sinks, [], left)
        if readable:
            piece = os.read(self.sink.fileno(), PIECE)
            self.come += piece
            self.has_ended = not piece
        return os.write(self.source.fileno(), given[:PIECE]) if writable else 0

    def flood(self, given):
        """Sends bytes and reads nothing until the program takes no more; what is left of them."""
        rest = memoryview(given)
        while rest and select.select([], [self.source], [], A_WHILE)[1]:
            rest = rest[os.write(self.source.fileno(), rest[:PIECE]) :]
        return rest

    def send(self, given):
        """Sends bytes, and reads meanwhile. A program that no longer reads is no fault here."""
        until, rest = time.monotonic() + SECONDS, memoryview(given)
        while rest:
            try:
                taken = self.step(until, rest)
            except BrokenPipeError:
                return
            rest = rest[taken:]
            if taken:
                until = time.monotonic() + SECONDS
            elif time.monotonic() > until:
                raise Fault(f"it has not read on for {SECONDS:g} s")

    def taken(self, count):
        """The first so many bytes of what has come."""
        found = bytes(memoryview(self.come)[:count])
        del self.come[:count]
        return found

    def expect(self, wanted):
        """Waits for these bytes, and takes them from what has come."""
        until = time.monotonic() + SECONDS
        while len(self.come) < len(wanted) and not self.has_ended and time.monotonic() < until:
            self.step(until)
        found = self.taken(len(wanted))
        if found != wanted:
            why = "the end of what it writes" if self.has_ended else f"{SECONDS:g} s"
            short = f", and then {why}" if len(found) < len(wanted) else ""
            raise Fault(difference(found, wanted) + short)

    def answer_to(self, word):
        """Waits for a line of this word and a number, and takes all up to its end."""
        until, at = time.monotonic() + SECONDS, None
        last = re.compile(rb"^%s [0-9]+\n" % word.encode(), re.MULTILINE)
        while not (at := last.search(self.come)):
            if self.has_ended or time.monotonic() > until:
                raise Fault(f"no line {word!r} has come, but {bytes(self.come[-200:])!r}")
            self.step(until)
        return self.taken(at.end())

    def expect_nothing(self):
        until = time.monotonic() + A_WHILE
        while time.monotonic() < until and not self.has_ended:
            self.step(until)
        self.need_nothing()

    def need_nothing(self):
        if self.come:
            raise Fault(f"more has come than was to be: {bytes(self.come[:200])!r}")

    def peak(self):
        """The most memory that the program has had so far, in megabytes."""
        told = Path(f"/proc/{self.running.pid}/status").read_text()
        line = next(line for line in told.splitlines() if line.startswith("VmHWM:"))
        return int(line.split()[1]) / 1024

    def expect_memory(self, most):
        if self.peak() > most:
            raise Fault(f"it has had {self.peak():.0f} MB, and should have at most {most}")

    def end(self):
        self.source.close()

    def hang_up(self):
        self.sink.close()

    def expect_status(self, wanted):
        """Waits for the end of the program, and reads meanwhile."""
        until = time.monotonic() + SECONDS
        while self.running.poll() is None and time.monotonic() < until:
            self.step(min(until, time.monotonic() + 0.05))
        while not self.has_ended and not self.sink.closed and time.monotonic() < until:
            self.step(until)
        status = self.running.poll()
        if status is None:
            raise Fault(f"it still runs after {SECONDS:g} s, wanted status {wanted}")
        self.need_nothing()
        if status != wanted:
            raise Fault(f"status {status}, wanted {wanted}")
        self.told.seek(0)
        told = self.told.read(400)
        if told:
            raise Fault(f"on standard error: {told!r}")


def difference(found, wanted):
    """The first line that came otherwise than it was to be."""
    pairs = list(zip(found.split(b"\n"), wanted.split(b"\n")))
    one, other = next((pair for pair in pairs if pair[0] != pair[1]), pairs[-1])
    return f"{one[:200]!r} has come, wanted {other[:200]!r}"


def bytes_of_file(name, folder):
    beside = folder / name
    return (beside if beside.exists() else TOP / name).read_bytes()


def hold(talk, line, folder):
    """Does what one line of a conversation says."""
    word, _, rest = line.partition(" ")
    text = rest.encode()
    if word == "document":
        document = bytes_of_file(rest, folder)
        talk.send(b"%d\n%s" % (len(document), document))
    elif word == ">":
        talk.send(text + b"\n")
    elif word == ">>":
        talk.send(text)
    elif word == ">.":
        for byte in text + b"\n":
            talk.send(bytes([byte]))
            time.sleep(BETWEEN_BYTES)
    elif word == "much":
        number, _, text = rest.partition(" ")
        talk.send(text.encode() * int(number))
    elif word == "flood":
        number, _, text = rest.partition(" ")
        left = talk.flood((text.encode() + b"\n") * int(number))
        if not left:
            raise Fault("it has taken all of that though nobody read its answers")
        talk.send(left)
    elif word == "memory":
        talk.expect_memory(int(rest))
    elif word == "<":
        talk.expect(text + b"\n")
    elif word == "<<":
        talk.expect(bytes_of_file(rest, folder))
    elif word == "nothing":
        talk.expect_nothing()
    elif word == "end":
        talk.end()
    elif line == "hang up":
        talk.hang_up()
    elif word == "status":
        talk.expect_status(int(rest))
    else:
        raise Fault("the conversation has no such line")


def text_of(file):
    """The text of a conversation, or what its script writes."""
    if file.suffix != ".py":
        return file.read_text()
    return subprocess.run(
        ["/usr/bin/python3", file], stdout=subprocess.PIPE, check=True, text=True
    ).stdout


def fault_of(program, file, words=()):
    """What the program does otherwise than the conversation in the file says, or None."""
    with Talk(program, words) as talk:
        for number, line in enumerate(text_of(file).split("\n"), 1):
            if not line or line.startswith("#"):
                continue
            try:
                hold(talk, line, file.parent)
            except Fault as fault:
                return f"line {number}, {line[:60]!r}: {fault}"
    return None


def main(words):
    if words[:1] == ["--help"] or len(words) < 2:
        print(__doc__)
        return 0 if words[:1] == ["--help"] else 2
    faults = [(file, fault_of(words[0], Path(file))) for file in words[1:]]
    for file, fault in faults:
        print(f"{file}: {fault or 'held'}")
    return 1 if any(fault for _, fault in faults) else 0


if __name__ == "__main__":
    sys.exit(main(sys.argv[1:]))

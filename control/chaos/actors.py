"""The commands of a run: daemons that are kept up, and single calls, all logged for the judge."""

import asyncio
import itertools
import json
import os
import random
import signal
from collections.abc import Callable
from dataclasses import dataclass, field
from pathlib import Path

from chaos.log import Log, text_of

PATIENCE = 90.0  # seconds that a single call has
UNKNOWN = 5  # the exit status of a put whose outcome is unknown


def send(process: asyncio.subprocess.Process, what: signal.Signals) -> None:
    """Sends a signal. (The process's own `send_signal` would take its status from asyncio.)"""
    if process.returncode is None:
        try:
            os.kill(process.pid, what)
        except ProcessLookupError:
            pass  # it ended just now


@dataclass
class Stage:
    """Where commands run: how each begins on a host, and the log that they share."""

    begin: Callable[[str], list[str]]  # what stands before a command's own arguments, by host
    log: Log
    folder: Path
    numbers: "itertools.count[int]" = field(default_factory=itertools.count)

    async def start(
        self, host: str, who: str, arguments: list[str], **more: object
    ) -> tuple[int, asyncio.subprocess.Process]:
        """Starts a command; its number and its process."""
        number = next(self.numbers)
        self.log.write("call", call=number, who=who, host=host, command=arguments[0], **more)
        errors = (self.folder / f"{who}.err").open("ab")
        with errors:
            process = await asyncio.create_subprocess_exec(
                *self.begin(host),
                *arguments,
                stdin=asyncio.subprocess.PIPE,
                stdout=asyncio.subprocess.PIPE,
                stderr=errors,
                limit=1 << 24,
            )
        return number, process


@dataclass
class Daemon:
    """A command that is started again whenever it has ended: an allocator, or a reader that follows."""

    stage: Stage
    host: str
    who: str
    arguments: list[str]
    rng: random.Random
    reporter: str = ""
    process: asyncio.subprocess.Process | None = None
    starts: int = 0

    async def run(self) -> None:
        """Keeps it up until it is cancelled."""
        while True:
            number, self.process = await self.stage.start(
                self.host, self.who, self.arguments, reporter=self.reporter, follow=True
            )
            self.starts += 1
            await self.follow(number, self.process)
            await asyncio.sleep(self.rng.uniform(0.1, 2.0))

    async def follow(self, number: int, process: asyncio.subprocess.Process) -> None:
        assert process.stdout is not None
        block = b""
        try:
            while line := await process.stdout.readline():
                if line == b"\n":
                    self.stage.log.write("block", call=number, text=text_of(block))
                    block = b""
                else:
                    block += line
            status = await process.wait()
        except asyncio.CancelledError:
            self.send(signal.SIGKILL)
            raise
        self.stage.log.write("end", call=number, status=status)

    def send(self, what: signal.Signals) -> None:
        if self.process is not None:
            send(self.process, what)

    def children(self) -> list[int]:
        """The processes that it started itself."""
        if self.process is None:
            return []
        pid = self.process.pid
        try:
            text = Path(f"/proc/{pid}/task/{pid}/children").read_text()
        except OSError:
            return []
        return [int(word) for word in text.split()]


@dataclass
class Clients:
    """Single calls of `report` and `limits`."""

    stage: Stage
    running: set[asyncio.subprocess.Process] = field(default_factory=set)

    async def report(self, host: str, reporter: str, value: bytes, wait: bool) -> int | None:
        """Reports once; the revision if it was told to be posted."""
        arguments = ["report", reporter, *(["--wait"] if wait else [])]
        said = await self.call(host, f"{reporter}@{host}", arguments, reporter, value)
        told = [line for line in said if line.startswith("posted ")]
        return int(told[0].split(" ")[1]) if told else None

    async def limits(self, host: str, reporter: str) -> None:
        """Reads once."""
        await self.call(host, f"look {reporter}@{host}", ["limits", reporter], reporter, b"")

    async def call(
        self, host: str, who: str, arguments: list[str], reporter: str, value: bytes
    ) -> list[str]:
        """Runs a command to its end; the lines that it printed."""
        more = {"reporter": reporter, "value": text_of(value)}
        number, process = await self.stage.start(host, who, arguments, **more)
        self.running.add(process)
        try:
            return await asyncio.wait_for(self.speak(number, process, arguments, value), PATIENCE)
        except asyncio.TimeoutError:
            return []
        finally:
            self.running.discard(process)
            send(process, signal.SIGKILL)
            self.stage.log.write("end", call=number, status=await process.wait())

    async def speak(
        self, number: int, process: asyncio.subprocess.Process, arguments: list[str], value: bytes
    ) -> list[str]:
        assert process.stdin is not None and process.stdout is not None
        try:
            process.stdin.write(value)
            await process.stdin.drain()
            process.stdin.close()
        except (BrokenPipeError, ConnectionResetError):
            pass  # it was killed before it read
        said, block = [], b""
        while line := await process.stdout.readline():
            if arguments[0] == "report":
                said.append(text_of(line.rstrip(b"\n")))
                self.stage.log.write("said", call=number, line=said[-1])
            elif line == b"\n":
                self.stage.log.write("block", call=number, text=text_of(block))
            else:
                block += line
        await process.wait()
        return said


@dataclass
class Putter:
    """The program that puts reports past the command."""

    process: asyncio.subprocess.Process
    stage: Stage

    def put(self, key: str, reporter: str, value: bytes) -> None:
        number = next(self.stage.numbers)
        text = text_of(value)
        self.stage.log.write(
            "call", call=number, who="putter", command="put", reporter=reporter, value=text
        )
        assert self.process.stdin is not None
        line = json.dumps({"number": number, "key": key, "value": text})
        self.process.stdin.write(line.encode() + b"\n")

    async def follow(self) -> None:
        assert self.process.stdout is not None
        while line := await self.process.stdout.readline():
            answer = json.loads(line)
            number = answer["number"]
            if "put" in answer:
                self.stage.log.write("said", call=number, line=f"put {answer['put']}")
            self.stage.log.write("end", call=number, status=0 if "put" in answer else UNKNOWN)


async def start_putter(command: list[str], stage: Stage) -> Putter:
    process = await asyncio.create_subprocess_exec(
        *command, stdin=asyncio.subprocess.PIPE, stdout=asyncio.subprocess.PIPE
    )
    return Putter(process, stage)

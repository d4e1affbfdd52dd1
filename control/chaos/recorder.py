"""Records the history of an etcd store as it goes: one transaction a line of JSON.

It watches from revision 1, at one member after the other, so that compaction and lost members
leave no gap: `{"revision": R, "at": T, "puts": {KEY: VALUE}, "deletes": [KEY]}`, keys below the
prefix. `{"gap": R}` says that all up to R was compacted before it was seen. Each line also goes to
standard output, where `{"seen": R}` stands for a revision that has none.
"""

import asyncio
import json
import sys
import time
from collections.abc import Iterable
from itertools import cycle
from pathlib import Path

import grpc
import grpc.aio
from etcd3.etcdrpc import kv_pb2, rpc_pb2, rpc_pb2_grpc

from chaos.log import text_of

QUIET = 2.0  # seconds without an event after which another member is asked
OPTIONS = [("grpc.max_receive_message_length", -1)]


def end_of(prefix: bytes) -> bytes:
    """The least key above all that begin with the prefix."""
    return prefix[:-1] + bytes([prefix[-1] + 1])


class Recorder:
    def __init__(self, prefix: bytes, path: Path) -> None:
        self.prefix = prefix
        self.file = path.open("a", encoding="ascii")
        self.revision = 0  # of the last transaction that is recorded

    def write(self, line: dict[str, object]) -> None:
        text = json.dumps(line)
        self.file.write(text + "\n")
        self.file.flush()
        print(text, flush=True)

    def take(self, events: Iterable[kv_pb2.Event]) -> None:
        """Records events, which come in the order of their revisions."""
        puts: dict[str, str] = {}
        deletes: list[str] = []
        last = 0
        for event in events:
            revision = event.kv.mod_revision
            if revision != last and last > self.revision:
                self.write_transaction(last, puts, deletes)
            if revision != last:
                puts, deletes, last = {}, [], revision
            if not event.kv.key.startswith(self.prefix):
                continue
            key = text_of(event.kv.key.removeprefix(self.prefix))
            if event.type == kv_pb2.Event.PUT:
                puts[key] = text_of(event.kv.value)
            else:
                deletes.append(key)
        if last > self.revision:
            self.write_transaction(last, puts, deletes)

    def write_transaction(self, revision: int, puts: dict[str, str], deletes: list[str]) -> None:
        at = time.monotonic()
        if puts or deletes:
            self.write({"revision": revision, "at": at, "puts": puts, "deletes": deletes})
        else:
            print(json.dumps({"seen": revision}), flush=True)
        self.revision = revision

    async def watch(self, member: str) -> None:
        """Records what one member tells, until it is quiet or away."""
        async with grpc.aio.insecure_channel(member, OPTIONS) as channel:
            stream = rpc_pb2_grpc.WatchStub(channel).Watch()
            create = rpc_pb2.WatchCreateRequest(
                key=b"\0", range_end=b"\0", start_revision=self.revision + 1  # all keys
            )
            await asyncio.wait_for(stream.write(rpc_pb2.WatchRequest(create_request=create)), QUIET)
            while True:
                answer = await asyncio.wait_for(stream.read(), QUIET)
                if answer is grpc.aio.EOF:
                    return
                if answer.compact_revision:
                    self.write({"gap": answer.compact_revision})
                    self.revision = answer.compact_revision
                    return
                self.take(answer.events)


async def record(prefix: bytes, path: Path, members: list[str]) -> None:
    recorder = Recorder(prefix, path)
    for member in cycle(members):
        try:
            await recorder.watch(member)
        except (asyncio.TimeoutError, grpc.RpcError):
            pass  # the next member may be there
        await asyncio.sleep(0.05)


async def read_all(prefix: bytes, members: list[str]) -> dict[str, object]:
    """All keys below the prefix by one linearizable read, with its revision."""
    asked = rpc_pb2.RangeRequest(key=prefix, range_end=end_of(prefix))
    for member in cycle(members):
        async with grpc.aio.insecure_channel(member, OPTIONS) as channel:
            try:
                answer = await rpc_pb2_grpc.KVStub(channel).Range(asked, timeout=3)
            except grpc.RpcError:
                continue
            keys = {text_of(it.key.removeprefix(prefix)): text_of(it.value) for it in answer.kvs}
            return {"revision": answer.header.revision, "keys": keys}
    raise AssertionError("a cycle has no end")


def main(arguments: list[str]) -> None:
    """Arguments: `record PREFIX FILE MEMBER..` or `read PREFIX MEMBER..`."""
    what, prefix, *more = arguments
    if what == "record":
        asyncio.run(record(prefix.encode(), Path(more[0]), more[1:]))
    else:
        print(json.dumps(asyncio.run(read_all(prefix.encode(), more))))


if __name__ == "__main__":
    main(sys.argv[1:])

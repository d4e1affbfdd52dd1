"""Puts reports into an etcd store, for little: one process, one request a report, none repeated.

Standard input has lines `{"number": N, "key": KEY, "value": VALUE}`. Each is answered by
`{"number": N, "put": R}` with its revision, or `{"number": N, "lost": WHY}`: then it was done, was
not, or comes late.
"""

import asyncio
import json
import sys

import grpc
import grpc.aio
from etcd3.etcdrpc import rpc_pb2, rpc_pb2_grpc

from chaos.log import bytes_of

PATIENCE = 3.0  # seconds


class Putter:
    """One channel at a time, to the next member after each failure."""

    def __init__(self, members: list[str]) -> None:
        self.members = members
        self.at = 0
        self.channel = grpc.aio.insecure_channel(members[0])

    async def put(self, number: int, key: str, value: str) -> None:
        request = rpc_pb2.PutRequest(key=key.encode(), value=bytes_of(value))
        channel = self.channel
        try:
            answer = await rpc_pb2_grpc.KVStub(channel).Put(request, timeout=PATIENCE)
            tell(number, "put", answer.header.revision)
        except grpc.RpcError as fault:
            tell(number, "lost", str(fault.details()))
            if channel is self.channel:
                self.at = (self.at + 1) % len(self.members)
                self.channel = grpc.aio.insecure_channel(self.members[self.at])
                await channel.close()


def tell(number: int, word: str, what: object) -> None:
    print(json.dumps({"number": number, word: what}), flush=True)


async def main(members: list[str]) -> None:
    reader = asyncio.StreamReader(limit=1 << 20)
    loop = asyncio.get_running_loop()
    await loop.connect_read_pipe(lambda: asyncio.StreamReaderProtocol(reader), sys.stdin)
    putter, running = Putter(members), set[asyncio.Task[None]]()
    while line := await reader.readline():
        task = asyncio.create_task(putter.put(**json.loads(line)))
        running.add(task)
        task.add_done_callback(running.discard)


if __name__ == "__main__":
    asyncio.run(main(sys.argv[1:]))

"""The frames of one direction of an HTTP/2 connection, cut out of its bytes as they come."""

from dataclasses import dataclass, field

PREFACE = b"PRI * HTTP/2.0\r\n\r\nSM\r\n\r\n"
HEAD = 9  # bytes before the payload of a frame
DATA = 0
RESET = 3


@dataclass(frozen=True)
class Frame:
    """A whole frame; the preface of a connection counts as one of kind -1."""

    kind: int
    stream: int
    bytes: bytes


@dataclass
class Frames:
    """Takes in bytes of a client and gives out the frames that are whole."""

    rest: bytes = b""
    begun: bool = field(default=False)

    def feed(self, more: bytes) -> list[Frame]:
        self.rest += more
        found = []
        while (frame := self.next()) is not None:
            found.append(frame)
        return found

    def next(self) -> Frame | None:
        if not self.begun:
            if len(self.rest) < len(PREFACE):
                return None
            self.begun = True
            return self.take(len(PREFACE), -1, 0)
        if len(self.rest) < HEAD:
            return None
        length = int.from_bytes(self.rest[:3], "big")
        if len(self.rest) < HEAD + length:
            return None
        stream = int.from_bytes(self.rest[5:HEAD], "big") & 0x7FFF_FFFF
        return self.take(HEAD + length, self.rest[3], stream)

    def take(self, length: int, kind: int, stream: int) -> Frame:
        bytes_, self.rest = self.rest[:length], self.rest[length:]
        return Frame(kind, stream, bytes_)

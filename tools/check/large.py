"""Documents at the limits of the format, for the scripts of cases: `stdin.py` and `stdout.py` beside
a case put them together and write them, so that no megabyte is stored.

A document is given by its members, each the bytes of its JSON; what is not given is that of
`MEMBERS`, a network of one link that nobody uses. A list is so many entries of a form, in which
`#` is the entry's number.
"""

import sys
from collections.abc import Iterator

AFTER_1, AFTER_3 = 67_108_864, 1_073_741_824  # the greatest lengths before version 4, and of it
PIECE = 65_536
LINK = b'{"name":"l#","from":"a","to":"b","capacity":1}'
TASK = b'{"name":"t#","reporter":"r0"}'
JOB = b'{"name":"j0","task":[[0,0],[1,1]],"tasks":%s}'
GROUP = (
    b'{"name":"g#","from":"a","to":"b","paths":[[{"weight":1,"links":["l0"]}]],'
    b'"users":[{"name":"u0","jobs":[%s]}]}'
)
REPORT = b'{"reporter":"r0","task":"t0","demand":1}'
MEMBERS = {
    b"version": b"4",
    b"top": b"1",
    b"links": b"[" + LINK.replace(b"#", b"0") + b"]",
    b"groups": b"[]",
    b"reporters": b'["r0"]',
    b"script": b"[]",
}


def numbered(form: bytes, count: int) -> Iterator[bytes]:
    """The form with each number from 0, in pieces."""
    before, *behind = form.split(b"#")
    for start in range(0, count, PIECE):
        numbers = (b"%d" % at for at in range(start, min(start + PIECE, count)))
        yield b"".join(before + b"".join(number + part for part in behind) for number in numbers)


def listed(form: bytes, count: int) -> bytes:
    """A list of so many entries."""
    return b"[" + b"".join(numbered(form + b",", count))[:-1] + b"]"


def repeated(entry: bytes, count: int) -> bytes:
    """A list of the same entry so many times."""
    return b"[" + ((entry + b",") * count)[:-1] + b"]"


def document(**members: bytes) -> bytes:
    """The JSON of a document with these members; None leaves one out."""
    whole = MEMBERS | {key.encode(): value for key, value in members.items()}
    return of(*((key, value) for key, value in whole.items() if value is not None))


def of(*members: tuple[bytes, bytes]) -> bytes:
    """The JSON of an object of keys and values, in this order and as often as they stand."""
    return b"{" + b",".join(b'"%s":%s' % member for member in members) + b"}"


def groups(count: int) -> bytes:
    """Groups of one task each over the link l0."""
    return listed(GROUP % (JOB % (b"[" + TASK + b"]")), count)


def one_group(tasks: int = 1) -> bytes:
    """A list of one group, which has a job of so many tasks."""
    group = GROUP % (JOB % listed(TASK, tasks))
    return b"[" + group.replace(b'"g#"', b'"g0"') + b"]"


def reports(count: int) -> bytes:
    """A document of version 1 with so many reports of one task, the last of which asks for 7 of 9."""
    job = JOB.replace(b"[1,1]", b"[9,9]") % (b"[" + TASK + b"]")
    before = repeated(REPORT, count - 1)[:-1]
    return document(
        version=b"1",
        top=b"9",
        links=b"[" + LINK.replace(b"#", b"0").replace(b":1}", b":100}") + b"]",
        groups=b"[" + (GROUP % job).replace(b"#", b"0") + b"]",
        script=before + b"," + REPORT.replace(b":1}", b":7}") + b"]",
    )


def chains(hops: int) -> tuple[bytes, bytes]:
    """Links, and groups of one task whose paths have so many links in all: groups of 16 path
    groups of 16 paths of 32 links, as long as it goes, and one path more of a single link for
    each that is left over.
    """
    sites = [b"a", *(b"s%d" % at for at in range(31)), b"b"]
    form = b'{"name":"%s","from":"%s","to":"%s","capacity":1}'
    links = [form % (b"l%d" % at, sites[at], sites[at + 1]) for at in range(32)]
    links.append(form % (b"d", b"a", b"b"))
    chain = b'{"weight":1,"links":[' + b",".join(b'"l%d"' % at for at in range(32)) + b"]}"
    left = [b'{"weight":1,"links":["d"]}'] * (hops % 32)
    path_groups = [repeated(chain, 16)] * (hops // 32 // 16)
    path_groups += [b"[" + one + b"]" for one in [chain] * (hops // 32 % 16) + left]
    made = []
    for number, start in enumerate(range(0, len(path_groups), 16)):
        paths = b"[" + b",".join(path_groups[start : start + 16]) + b"]"
        task = TASK.replace(b"#", b"%d" % number)
        head = b'{"name":"g%d","from":"a","to":"b","paths":' % number
        users = b',"users":[{"name":"u0","jobs":[' + JOB % (b"[" + task + b"]") + b"]}]}"
        made.append(head + paths + users)
    return b"[" + b",".join(links) + b"]", b"[" + b",".join(made) + b"]"


def path_groups_of(hops: int) -> list[int]:
    """How many path groups each group of `chains` has."""
    whole = hops // 32 // 16 + hops // 32 % 16 + hops % 32
    return [min(16, whole - start) for start in range(0, whole, 16)]


def parts(first: bytes, second: bytes) -> bytes:
    """A two-part input."""
    return b"%d\n%s%s" % (len(first), first, second)


def write(*given: bytes, length: int = 0) -> None:
    """Writes bytes to standard output, and spaces up to a length."""
    sink, written = sys.stdout.buffer, 0
    for piece in given:
        sink.write(piece)
        written += len(piece)
    spaces = b" " * (1 << 20)
    while written < length:
        written += sink.write(spaces[: length - written])
    sink.flush()


def write_lines(*lines: str | Iterator[bytes]) -> None:
    """Writes lines, and of an iterator its bytes."""
    for line in lines:
        if isinstance(line, str):
            write(line.encode() + b"\n")
        else:
            write(*line)

"""The JSON of a text as bwe reads it, and where in the text a value stands."""

from __future__ import annotations

import gc
import json
import math
import re
from array import array
from bisect import bisect_right
from collections.abc import Callable, Iterator
from contextlib import contextmanager
from dataclasses import dataclass
from itertools import accumulate, islice
from typing import Any, NoReturn

from bwe_tools.raw import Place

MOST_LEVELS = 127
MOST_WHOLE = 2**64 - 1
SPACE = re.compile(r"[ \t\n\r]*")
TOKEN = re.compile(r'"(?:[^"\\]|\\.)*"|[\[\]{}]', re.DOTALL)
TEXT = re.compile(r'"(?:[^"\\]|\\.)*"', re.DOTALL)
PIECE, PARTS, LONG = 1 << 20, 1 << 16, 4_000_000
NO_BRACKET = bytes(set(range(256)) - set(b"[]{}"))
NO_MARK = bytes(set(range(256)) - set(b'[]{}"'))
# A number that Python reads as another whole number than bwe has a sign or is so long. They are
# looked for where each digit stands as 0, and what may stand before a value as a colon.
ALIKE = bytes.maketrans(b"123456789,[ \t\n\r", b"0" * 9 + b":" * 6)
SIGNED_NUMBER, LONG_NUMBER = b":-", b"0" * 20
# What opens a level counts 1, and what closes one -1.
LEVELS = [(byte in b"[{") - (byte in b"]}") for byte in range(256)]
BRACKET, KEYS = re.compile(r"[\[\]{}]"), json.JSONDecoder()
TEXTS = frozenset((str,))
ESCAPE = re.compile(r"\\(?:u([0-9a-fA-F]{4})|.)", re.DOTALL)


class NotJson(Exception):
    """The text is not JSON for bwe: what is wrong, and the offset where."""

    def __init__(self, sentence: str, offset: int) -> None:
        super().__init__(sentence)
        self.offset = offset


class NoWhole(float):
    """A number that is none of the whole numbers of a document, with the text that it has."""

    text: str

    def __new__(cls, text: str) -> NoWhole:
        number = super().__new__(cls, text)
        number.text = text
        if math.isinf(number):
            raise NotJson(f"the number {shortened(text)} is too great for JSON as bwe reads it", -1)
        return number


@dataclass(frozen=True)
class Position:
    line: int
    column: int

    def __str__(self) -> str:
        return f"{self.line}:{self.column}"


def shortened(text: str, most: int = 40) -> str:
    return text if len(text) <= most else text[: most - 3] + "..."


def whole_number(text: str) -> int | NoWhole:
    if text.startswith("-") or len(text) > 20 or int(text) > MOST_WHOLE:
        return NoWhole(text)
    return int(text)


def refuse_constant(text: str) -> NoReturn:
    raise NotJson(f"{text} is no number of JSON", -1)


def parse(data: bytes) -> tuple[str, Any]:
    """The text and its value. What `bwe` refuses as no JSON is NotJson."""
    text = decoded(data)
    return text, value_of(text)


def decoded(data: bytes) -> str:
    """The text of bytes; NotJson where they are not UTF-8."""
    try:
        return data.decode("utf-8")
    except UnicodeDecodeError as fault:
        before = data[: fault.start].decode("utf-8")
        raise NotJson(
            f"the byte {data[fault.start]} begins no character of UTF-8", len(before)
        ) from None


def value_of(text: str, look: Look | None = None) -> Any:
    """The value of a text. What `bwe` refuses as no JSON is NotJson."""
    is_doubtful = (look or look_at(text)).is_doubtful
    try:
        # A call for each number takes long, and most documents have none in doubt.
        parse_int = whole_number if is_doubtful else None
        with collector_at_rest():
            value = json.loads(
                text,
                parse_int=parse_int,
                parse_float=NoWhole,
                parse_constant=refuse_constant,
                object_hook=one_of_each() if len(text) > LONG else None,
            )
    except json.JSONDecodeError as fault:
        raise NotJson(json_sentence(text, fault), fault.pos) from None
    except NotJson as fault:
        raise NotJson(str(fault), offset_of_number(text)) from None
    check_surrogates(text)
    return value


def one_of_each() -> Callable[[dict[str, Any]], dict[str, Any]]:
    """A hook that keeps of each name of a reporter and of a link of a path one text, however often
    it stands: of a long document they may be most of what its value takes. It is called for each
    object of a document, and does little.
    """
    known: dict[str, str] = {}
    keep = known.setdefault

    def put(found: dict[str, Any]) -> dict[str, Any]:
        reporter = found.get("reporter")
        if type(reporter) is str:
            found["reporter"] = keep(reporter, reporter)
        elif "weight" in found:
            links = found.get("links")
            if type(links) is list and TEXTS.issuperset(map(type, links)):
                found["links"] = list(map(keep, links, links))
        return found

    return put


@contextmanager
def collector_at_rest() -> Iterator[None]:
    """No search for rings of objects meanwhile: a document has none, and a great one is searched
    over and over as it grows.
    """
    was_at_work = gc.isenabled()
    gc.disable()
    try:
        yield
    finally:
        if was_at_work:
            gc.enable()


def outside_of_texts(text: str) -> Iterator[str]:
    """What stands outside of the texts between double quotes, piece by piece: no number is cut."""
    if "\\" in text:
        end, parts = 0, []
        for found in TEXT.finditer(text):
            parts.append(text[end : found.start()])
            end = found.end()
            if len(parts) == PARTS:
                yield "".join(parts)
                parts.clear()
        yield "".join(parts) + text[end:]
        return
    start, is_inside = 0, 0
    while start < len(text):
        end = text.find('"', start + PIECE)
        parts = text[start : end if end >= 0 else len(text)].split('"')
        yield "".join(parts[is_inside::2])
        is_inside ^= (len(parts) - 1) & 1
        start = end if end >= 0 else len(text)


def plain_brackets(text: str) -> bytes | None:
    """The brackets of a text in their order, where none stands between double quotes and nothing is
    escaped there; else None.
    """
    if "\\" in text:
        return None
    # Before a bracket that stands outside there is an even number of quotes, so runs of them go.
    marks = text.encode().translate(None, NO_MARK).replace(b'""', b"")
    return None if b'"' in marks else marks


@dataclass(frozen=True)
class Look:
    """What a look at what stands outside of the texts between double quotes has found."""

    is_doubtful: bool  # a number is in doubt
    has_plain_brackets: bool  # as `plain_brackets` says


def look_at(text: str) -> Look:
    """NotJson where lists and objects are nested too deep."""
    brackets = plain_brackets(text)
    is_doubtful = not is_plain(text, brackets) and look_outside(text)
    return Look(is_doubtful, brackets is not None)


def is_plain(text: str, brackets: bytes | None) -> bool:
    """A quick yes, as for most documents: no number is in doubt, and lists and objects are nested
    well and at most `MOST_LEVELS` deep. The brackets are those of `plain_brackets`.
    """
    if brackets is None or text.startswith("-"):
        return False
    alike = text.encode().translate(ALIKE)
    return SIGNED_NUMBER not in alike and LONG_NUMBER not in alike and not unpaired(brackets)


def unpaired(brackets: bytes) -> bytes:
    """What is left of brackets without those that close one of them; all is left of pairs that are
    nested too deep.
    """
    # A round takes away the innermost lists and objects, which are at most two levels.
    for _ in range(MOST_LEVELS // 2):
        left = brackets.replace(b"[]", b"").replace(b"{}", b"")
        if len(left) == len(brackets):
            break
        brackets = left
    return brackets


def look_outside(text: str) -> bool:
    """Whether a number is in doubt; NotJson where lists and objects are nested too deep."""
    is_doubtful, level = False, 0
    for piece in outside_of_texts(text):
        outside = piece.encode()
        is_doubtful = (
            is_doubtful or b"-" in outside or LONG_NUMBER in outside.translate(ALIKE)
        )
        steps = map(LEVELS.__getitem__, outside.translate(None, NO_BRACKET))
        levels = list(accumulate(steps, initial=level))
        if max(levels) > MOST_LEVELS:
            refuse_deepest(text)
        level = levels[-1]
    return is_doubtful


def refuse_deepest(text: str) -> None:
    levels = 0
    for token in TOKEN.finditer(text):
        if token[0] in "[{":
            levels += 1
            if levels > MOST_LEVELS:
                raise NotJson(
                    f"lists and objects are nested more than {MOST_LEVELS} deep", token.start()
                )
        elif token[0] in "]}":
            levels -= 1


def check_surrogates(text: str) -> None:
    """Each escape of a first half of a pair has to be followed by one of a second half, and no
    other may be one.
    """
    if "\\" not in text:
        return
    is_half_open, end = False, 0
    for escape in ESCAPE.finditer(text):
        code = int(escape[1], 16) if escape[1] else 0
        is_second = 0xDC00 <= code < 0xE000
        if is_second != (is_half_open and escape.start() == end) or (
            is_half_open and not is_second
        ):
            raise NotJson("half a pair of \\u escapes is no character", escape.start())
        is_half_open, end = 0xD800 <= code < 0xDC00, escape.end()
    if is_half_open:
        raise NotJson("half a pair of \\u escapes is no character", end - 6)


def offset_of_number(text: str) -> int:
    """Where the first number stands that bwe does not read."""
    for found in re.finditer(r'"(?:[^"\\]|\\.)*"|-?Infinity|NaN|-?[0-9][0-9.eE+-]*', text):
        if found[0][0] != '"' and (found[0][-1] in "yN" or math.isinf(float(found[0]))):
            return found.start()
    return 0


def json_sentence(text: str, fault: json.JSONDecodeError) -> str:
    """What is wrong where Python's parser stopped, in the words of somebody who writes JSON by
    hand.
    """
    if not text.strip():
        return "the file is empty"
    here, before = text[fault.pos : fault.pos + 1], text[: fault.pos].rstrip()
    if text.startswith("\ufeff"):
        return "the file begins with a byte order mark; save it as UTF-8 without one"
    if text.lstrip().startswith("<"):
        return "this is XML and not JSON; from-graphml and from-sndlib make a document of it"
    if not here:
        return "the text ends before the document does; is a bracket or a brace missing?"
    if here == "'":
        return "texts stand between double quotes in JSON"
    if here in "]}" and before.endswith(","):
        return f"a comma stands before the closing {here}; leave it out"
    if here == "/" or here == "#":
        return "JSON has no comments"
    if here.isspace() or not here.isprintable():
        return f"the character U+{ord(here):04X} is no white space of JSON"
    if here in "+." or (here.isdigit() and before.endswith(".")):
        return "a number of JSON has no +, and digits on both sides of its point"
    if here.isdigit() and before.endswith(("0", "-0")) and "delimiter" in fault.msg:
        return "a number has no leading zero in JSON"
    if "',' delimiter" in fault.msg:
        return "a comma is missing before this"
    if "':' delimiter" in fault.msg:
        return "a colon is missing between a key and its value"
    if fault.msg == "Extra data":
        return "something stands after the end of the document"
    word = re.match(r"[A-Za-z_]\w*", text[fault.pos :])
    if word:
        return f"{word[0]} stands without the double quotes of a text, or is no value of JSON"
    return fault.msg[0].lower() + fault.msg[1:]


def after_space(text: str, at: int) -> int:
    """The first offset from one on at which no white space stands."""
    found = SPACE.match(text, at)
    return at if found is None else found.end()


Skip = Callable[[int], int]  # from where a value begins to where it ends


def skipped_by_parser(text: str) -> Skip:
    """Reads over values, of which none is kept."""
    decoder = json.JSONDecoder(object_pairs_hook=len, parse_float=len)

    def skip(at: int) -> int:
        return decoder.raw_decode(text, at)[1]

    return skip


def skipped_by_brackets(text: str) -> Skip:
    """The same for a text that has brackets outside of its texts alone (`plain_brackets`): several
    times as quick for a long list or object.
    """
    skip_short = skipped_by_parser(text)

    def skip(at: int) -> int:
        if text[at] not in "[{":
            return skip_short(at)
        level = 0
        for start in range(at, len(text), PIECE):
            piece = text[start : start + PIECE]
            brackets = piece.encode().translate(None, NO_BRACKET)
            left = unpaired(brackets)
            closing = left.count(b"]") + left.count(b"}")
            if closing < level:
                level += len(left) - 2 * closing
                continue
            levels = list(accumulate(map(LEVELS.__getitem__, brackets), initial=level))[1:]
            if 0 in levels:
                ends = islice(BRACKET.finditer(piece), levels.index(0), None)
                return start + next(ends).end()
            level = levels[-1] if levels else level
        return len(text)

    return skip


def members(text: str, at: int, skip: Skip) -> Iterator[tuple[str | int, int, int]]:
    """The steps of the object or list that begins at an offset: the step, where its key stands,
    where its value stands.
    """
    is_object = text[at] == "{"
    number, at = 0, after_space(text, at + 1)
    while text[at] not in "]}":
        key_at = at
        step: str | int = number
        if is_object:
            step, at = KEYS.raw_decode(text, at)
            at = after_space(text, after_space(text, at) + 1)
        yield step, key_at, at
        at = after_space(text, skip(at))
        if text[at] == ",":
            at = after_space(text, at + 1)
        number += 1


class Entries:
    """Where the entries of a list stand, read as far as it is asked."""

    def __init__(self, found: Iterator[tuple[str | int, int, int]]) -> None:
        self.offsets = array("q")
        self.found = found

    def offset_of(self, number: int) -> int:
        missing = number + 1 - len(self.offsets)
        self.offsets.extend(value for _, _, value in islice(self.found, max(0, missing)))
        return self.offsets[number]


class Places:
    """Where in a text the values of its JSON stand; what was read through once is not again."""

    def __init__(self, text: str, look: Look | None = None) -> None:
        self.text, self.look = text, look
        self.lines = array("q", [0])
        self.lines.extend(found.end() for found in re.finditer("\n", text))
        self.skip = skipped_by_parser(text)
        self.objects: dict[int, dict[str, tuple[int, int]]] = {}
        self.lists: dict[int, Entries] = {}

    def offset_of(self, place: Place, is_key: bool = False) -> int:
        """Where the value at a place stands, or its key. Of a key that an object repeats the last
        one counts.
        """
        at = key_at = after_space(self.text, 0)
        for step in place:
            key_at, at = (
                self.members_of(at)[step] if isinstance(step, str) else self.entry_of(at, step)
            )
        return key_at if is_key else at

    def members_of(self, at: int) -> dict[str, tuple[int, int]]:
        """Where the keys and the values of the object at an offset stand."""
        if at not in self.objects:
            found = members(self.text, at, self.skip if self.objects else self.skip_long())
            self.objects[at] = {str(step): (key, value) for step, key, value in found}
        return self.objects[at]

    def skip_long(self) -> Skip:
        """What to read over the members of the root with, which are long."""
        look = self.look
        is_quick = look.has_plain_brackets if look else plain_brackets(self.text) is not None
        return skipped_by_brackets(self.text) if is_quick else self.skip

    def entry_of(self, at: int, number: int) -> tuple[int, int]:
        """Where an entry of the list at an offset stands, which is its key as well."""
        if at not in self.lists:
            self.lists[at] = Entries(members(self.text, at, self.skip))
        offset = self.lists[at].offset_of(number)
        return offset, offset

    def position(self, offset: int) -> Position:
        """Line and column, from 1, as editors count them."""
        line = bisect_right(self.lines, offset)
        return Position(line, offset - self.lines[line - 1] + 1)

    def position_of(self, place: Place, is_key: bool = False) -> Position:
        return self.position(self.offset_of(place, is_key))

"""The faults of shape: a document against docs/bwe.schema.json, each with what was likely meant."""

from __future__ import annotations

import json
from collections.abc import Iterable, Iterator
from functools import lru_cache
from typing import Any, Protocol

import jsonschema
from jsonschema.exceptions import ValidationError

from bwe_tools import hints, sound
from bwe_tools.fault import Fault, pointer, walk_order
from bwe_tools.json_text import shortened
from bwe_tools.program import page_file
from bwe_tools.raw import Place

SCHEMA = page_file("bwe.schema.json")
KINDS = {"integer": "a whole number", "string": "a text", "array": "a list", "object": "an object"}
FUNCTION_KEYS = ("function", "task")
NEWER = {
    "owner": "versions 2 to 4",
    "weight": "versions 3 and 4",
    "link": "versions 2 to 4",
    "capacity": "versions 2 to 4",
}


class Validator(Protocol):
    """A validator of the schema's library."""

    def iter_errors(self, instance: object) -> Iterator[ValidationError]: ...


@lru_cache(maxsize=None)
def validator() -> Validator:
    """The schema's validator, for which a whole number is what the format calls so: 1.0 and true
    are none.
    """
    kinds = jsonschema.Draft202012Validator.TYPE_CHECKER.redefine(
        "integer", lambda _, value: isinstance(value, int) and not isinstance(value, bool)
    )
    made = jsonschema.validators.extend(jsonschema.Draft202012Validator, type_checker=kinds)
    schema = json.loads(SCHEMA.read_text(encoding="utf-8"))
    checking: Validator = made(inlined(schema, schema.pop("$defs")))
    return checking


def inlined(schema: Any, definitions: dict[str, Any]) -> Any:
    """A schema with each reference replaced by what it names, for a long document much the quicker
    one to check.
    """
    if isinstance(schema, list):
        return [inlined(part, definitions) for part in schema]
    if not isinstance(schema, dict):
        return schema
    parts = {
        key: inlined(value, definitions)
        for key, value in schema.items()
        if key not in ("$ref", "description")
    }
    if "$ref" in schema:
        return inlined(definitions[schema["$ref"].rsplit("/", 1)[1]], definitions) | parts
    return parts


def point_place(place: Place) -> Place | None:
    """The place of the point of a function that a place is, or lies in."""
    for at in range(len(place) - 1):
        is_task_name = place[0] == "script"
        if place[at] in FUNCTION_KEYS and not is_task_name and isinstance(place[at + 1], int):
            return place[: at + 2]
    return None


def rule_of(error: ValidationError) -> object:
    """The key of the schema that a value breaks; None where the schema has False for it."""
    return error.validator


def fault_of(error: ValidationError, at: int | None = None) -> Fault | None:
    """The fault of shape that an error of the schema is; None where it is of another rule, as a
    range. `at` is the number of the entry of a list of the root that was looked at alone.
    """
    place: Place = tuple(error.absolute_path)
    value, rule = error.instance, rule_of(error)
    if at is not None:
        place = (place[0], at, *place[2:])
    point = point_place(place)
    if point is not None and (
        rule == "type"
        or (place == point and rule in ("minItems", "maxItems"))
    ):
        return Fault(
            point, "a point of a function is a list of two whole numbers, share and amount"
        )
    if rule == "type":
        return kind_fault(place, value, error.validator_value)
    if rule == "required":
        missing = next(key for key in error.validator_value if key not in value)
        return Fault(
            place, f'the key "{missing}" is missing', missing_hint(missing, value, error.schema)
        )
    if rule == "additionalProperties":
        known = error.schema["properties"]
        extra = next(key for key in value if key not in known)
        return Fault(place, unknown_key(extra, place), key_hint(extra, value, known), key=extra)
    if rule is None:
        key = str(place[-1])
        sentence = f'the key "{key}" is of {NEWER[key]} alone'
        return Fault(place[:-1], sentence, f"\"version\":{3 if key == 'weight' else 2}", key=key)
    return None


def kind_fault(place: Place, value: object, kind: str) -> Fault:
    written = getattr(value, "text", None) or json.dumps(value, ensure_ascii=False)
    what = f'"{place[-1]}" is' if place and isinstance(place[-1], str) else "this is"
    sentence = f"{what} {shortened(written)}, and has to be {KINDS[kind]}"
    if kind == "integer":
        return Fault(place, sentence, hints.whole(value))
    if kind == "array" and isinstance(value, (dict, str)) and value:
        return Fault(place, sentence, f"[{shortened(written)}]")
    return Fault(
        place,
        sentence,
        json.dumps(str(value)) if kind == "string" and isinstance(value, int) else None,
    )


def unknown_key(key: str, place: Place) -> str:
    where = "a document" if not place else f"{pointer(place)}"
    return f"the key {json.dumps(shortened(key), ensure_ascii=False)} is none of {where}"


def key_hint(key: str, value: dict[str, object], known: dict[str, object]) -> str | None:
    """The key that a misspelt one stands for: one that the object does not have yet."""
    if key in NEWER:
        return f"\"version\":{3 if key == 'weight' else 2}, as {key} is of {NEWER[key]} alone"
    meant = hints.near(key, [name for name in known if name not in value])
    return meant and json.dumps(meant)


def missing_hint(key: str, value: dict[str, object], schema: dict[str, Any]) -> str | None:
    """The misspelt key that stands in place of a missing one."""
    known = schema["properties"]
    if key == "task" and ("link" in value or "capacity" in value):
        return '"version":2, as reports of capacities are of versions 2 to 4 alone'
    written = hints.near(key, [name for name in value if name not in known])
    return written and f'"{key}" for {json.dumps(written, ensure_ascii=False)}'


def faults(raw: object) -> list[Fault]:
    """The faults of shape in the order of the format's walk: the first is the one that bwe refuses
    the document for. Of one place there is one.
    """
    if sound.is_shaped(raw):
        return []
    return in_order(by_parts(raw) if type(raw) is dict else found_in(raw))


def by_schema(raw: object) -> list[Fault]:
    """The same, without the short looks that tell what is sound."""
    return in_order(found_in(raw))


def found_in(raw: object) -> Iterator[Fault]:
    return (fault for fault in map(fault_of, validator().iter_errors(raw)) if fault is not None)


def found_in_entry(root: dict[str, Any], key: str, at: int, entry: object) -> Iterator[Fault]:
    """The faults of an entry of a list of the root, which stands there alone."""
    for error in validator().iter_errors({**root, key: [entry]}):
        fault = fault_of(error, at) if [*error.absolute_path][:2] == [key, 0] else None
        if fault is not None:
            yield fault


def by_parts(raw: dict[str, Any]) -> Iterator[Fault]:
    """The faults of the root, and of each entry of its lists that has not its shape: the others,
    a million maybe, cost no look of the schema's library.
    """
    root = {
        key: [] if key in sound.LISTS and sound.is_list(value) else value
        for key, value in raw.items()
    }
    yield from found_in(root)
    for key, at in sound.unsound_entries(raw):
        yield from found_in_entry(root, key, at, raw[key][at])


def in_order(faults: Iterable[Fault]) -> list[Fault]:
    found = sorted(faults, key=lambda fault: walk_order(fault.place))
    firsts = {fault.place: fault for fault in reversed(found)}
    return [
        fault.refused(f"2 shape at {pointer(fault.place)}") for fault in reversed(firsts.values())
    ]


def first_fault(raw: object) -> Fault | None:
    return next(iter(faults(raw)), None)

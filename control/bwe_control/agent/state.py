"""What the agent keeps over a restart: the classes of its tasks and the limits in force."""

from __future__ import annotations

import json
import logging
import os
import zlib
from collections.abc import Iterable, Mapping
from dataclasses import dataclass, field
from pathlib import Path

from bwe_control.agent.htb import REST

log = logging.getLogger(__name__)

FIRST_MINOR = 0x10
FORMAT = 1


@dataclass
class State:
    """The state file. `limits` are as they were posted, so a limit may be 0.

    `prefix` and `document` are those of the slice in force, `gso_max_segs` what the device had
    before the agent changed it.
    """

    minors: dict[str, int] = field(default_factory=dict)
    limits: dict[str, int] = field(default_factory=dict)
    prefix: int | None = None
    document: int | None = None
    gso_max_segs: int | None = None

    def write(self, path: Path) -> None:
        """Writes the file anew beside the old one, and puts it in its place."""
        path.parent.mkdir(parents=True, exist_ok=True)
        new = path.with_name(path.name + ".new")
        with new.open("w", encoding="utf-8") as file:
            file.write(json.dumps({"format": FORMAT, **vars(self)}))
            file.flush()
            os.fsync(file.fileno())
        new.replace(path)


def read_state(path: Path) -> State:
    """The state in a file; an empty one, with a warning, where the file cannot be used."""
    try:
        values = json.loads(path.read_text(encoding="utf-8"))
        if values.pop("format") != FORMAT:
            raise ValueError("another format")
        return State(**values)
    except FileNotFoundError:
        return State()
    except (OSError, ValueError, TypeError, KeyError, AttributeError) as error:
        log.warning("%s cannot be used, and is begun anew: %s", path, error)
        return State()


def class_numbers(tasks: Iterable[str], known: Mapping[str, int]) -> dict[str, int]:
    """A minor number for each task: the one that it has, else one that its name gives.

    A name gives the same number each time unless another task has that. So classes find their
    tasks again even where the state file is lost.
    """
    numbers = {task: known[task] for task in tasks if task in known}
    taken = {*known.values()}
    for task in sorted(set(tasks) - numbers.keys()):
        number = zlib.crc32(task.encode())
        while True:
            number = FIRST_MINOR + number % (REST - FIRST_MINOR)
            if number not in taken:
                break
            number += 1 - FIRST_MINOR
        numbers[task] = number
        taken.add(number)
    return numbers


def places_path(state: Path) -> Path:
    """Beside the state file: the path group by which each task with marks goes."""
    return state.with_name(state.name + ".places")


def read_places(state: Path) -> dict[str, int]:
    """The number of a path group for each task that was ever moved; the others go by the first."""
    try:
        lines = places_path(state).read_text(encoding="utf-8").splitlines()
        return {task: int(place) for task, place in (line.split() for line in lines)}
    except FileNotFoundError:
        return {}
    except (OSError, ValueError) as error:
        log.warning("%s cannot be used: %s", places_path(state), error)
        return {}


def write_places(state: Path, places: Mapping[str, int]) -> None:
    """Writes the file anew beside the old one, and puts it in its place."""
    path = places_path(state)
    path.parent.mkdir(parents=True, exist_ok=True)
    new = path.with_name(path.name + ".new")
    new.write_text("".join(f"{task} {place}\n" for task, place in sorted(places.items())))
    new.replace(path)

"""Broken allocators that the judge has to find: each is an edit of a copy of bwe_control.

A file `mutants/NAME.edit` begins with lines `word: value`: `says`, what is wrong; `store`, `seed`,
`seconds` and `faults`, the run in which it is found; `finds`, the kinds of faults of which one has
to be found. Then come edits: `file: PATH`, and behind lines `old:` and `new:` the text that goes
and the text that comes.
"""

import shutil
from collections.abc import Iterator
from dataclasses import dataclass, field
from pathlib import Path

from chaos.errors import ChaosError
from chaos.runs import Run

RATE = 6.0  # reports a second
FOLDER = Path(__file__).parent / "mutants"
COPIED = ("bwe-control", "control/bwe_control")
LINKED = ("tools", "crates")


@dataclass(frozen=True)
class Edit:
    file: str
    old: str
    new: str

    def apply(self, root: Path) -> None:
        path = root / "control" / self.file
        text = path.read_text("utf-8")
        if text.count(self.old) != 1:
            raise ChaosError(f"{self.file} has {text.count(self.old)} times what the edit is of")
        path.write_text(text.replace(self.old, self.new), "utf-8")


@dataclass(frozen=True)
class Mutant:
    name: str
    words: dict[str, str]
    edits: list[Edit] = field(default_factory=list)

    @property
    def stores(self) -> tuple[str, ...]:
        return tuple(self.words["store"].split(", "))

    def run(self, root: Path) -> Run:
        """The run in which it is to be found."""
        only = tuple(it for it in self.words.get("faults", "").split(", ") if it)
        seconds, seed = float(self.words["seconds"]), int(self.words["seed"])
        return Run(self.stores, seconds, seed, RATE, root, only)

    @property
    def finds(self) -> list[str]:
        return self.words["finds"].split(", ")

    def make(self, source: Path, root: Path) -> None:
        """Copies what bwe-control is from one tree to another and breaks it."""
        for name in COPIED:
            place = root / name
            place.parent.mkdir(parents=True, exist_ok=True)
            if (source / name).is_dir():
                shutil.copytree(source / name, place)
            else:
                shutil.copy(source / name, place)
        for name in LINKED:
            (root / name).symlink_to(source / name)
        for edit in self.edits:
            edit.apply(root)


def read_mutant(path: Path) -> Mutant:
    words: dict[str, str] = {}
    edits: list[Edit] = []
    parts: dict[str, str] = {}
    part = ""
    for line in [*path.read_text("utf-8").splitlines(keepends=True), "file: \n"]:
        if line.startswith("file: "):
            if "file" in parts:
                edits.append(Edit(parts["file"], parts["old"], parts["new"]))
            part, parts = "", {"file": line.removeprefix("file: ").strip()}
        elif line in ("old:\n", "new:\n") and "file" in parts:
            part = line[:3]
            parts[part] = ""
        elif part:
            parts[part] += line
        else:
            word, _, value = line.partition(": ")
            words[word] = value.strip()
    return Mutant(path.stem, words, edits)


def mutants(names: tuple[str, ...]) -> Iterator[Mutant]:
    """Those of the names, or all."""
    for path in sorted(FOLDER.glob("*.edit")):
        if not names or path.stem in names:
            yield read_mutant(path)

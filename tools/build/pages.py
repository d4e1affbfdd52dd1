#!/usr/bin/python3
"""tools/build/pages.py [--check]: writes the tables of docs/PROMISES.md and docs/MUTATIONS.md.

The map of the crates is made of crates.txt, of the first sentence of each crate's root file and of
docs/promises.toml; the report on mutants of docs/mutations.toml and of the mutants themselves. With
--check nothing is written: each page that differs is named, and the exit status is 1.
"""

import re
import sys
import tomllib
from dataclasses import dataclass
from pathlib import Path
from typing import Any

TOP = Path(__file__).resolve().parents[2]
Table = dict[str, Any]


@dataclass(frozen=True)
class Crate:
    """A crate of crates.txt: its name, its layer and the first sentence of its root file."""

    name: str
    layer: str
    sentence: str


def sentence_of(root: str) -> str:
    """The first sentence of a root file's comment; a rule of DEFINITIONS by its name alone."""
    paragraph: list[str] = []
    for line in root.splitlines():
        if line.startswith("//!"):
            if not line[3:].strip():
                break
            paragraph.append(line[3:].strip())
    text = re.sub(r'\("([^"]+)", docs/DEFINITIONS\.md\)', r"(\1)", " ".join(paragraph))
    return re.split(r"(?<=\.)\s", text)[0].removesuffix(".")


def crates() -> list[Crate]:
    """The crates in the order of crates.txt."""
    found: list[Crate] = []
    layer = ""
    for line in (TOP / "crates.txt").read_text().splitlines():
        if line.startswith("# "):
            layer = line[2:]
        elif line:
            name = line.split(":")[0].split()[0]
            source = TOP / "crates" / name / "src"
            root = next(file for file in (source / "lib.rt", source / "main.rt") if file.exists())
            found.append(Crate(name, layer, sentence_of(root.read_text())))
    return found


def data(name: str) -> Table:
    """A file of docs/."""
    return tomllib.loads((TOP / "docs" / name).read_text())


def row(*cells: str) -> str:
    """A row of a table."""
    return "|" + "".join(f" {cell} |" if cell else " |" for cell in cells)


def head(*cells: str) -> list[str]:
    """The first two rows of a table."""
    return [row(*cells), "|" + "---|" * len(cells)]


def map_of_crates() -> list[str]:
    """A row a crate, by layer: what it is, what is proved of it and by which call, and the rest."""
    promises = data("promises.toml")
    rows = head("crate", "what it is", "proved, and by which call")
    layer = ""
    for crate in crates():
        if crate.layer != layer:
            layer = crate.layer
            rows.append(row(f"**{layer}**", "", ""))
        said = promises[crate.name]
        by = [f"({said['by']})"] if "by" in said else []
        proved = " ".join([said["proved"], *by] if "proved" in said else by)
        cells = [proved] if proved else []
        cells += [f"**Tested:** {said['tested']}"] if "tested" in said else []
        cells += [f"**Open:** {said['open']}"] if "open" in said else []
        rows.append(row(f"`{crate.name}`", crate.sentence, ". ".join(cells)))
    return rows


def planted() -> list[str]:
    """What `rt plant` said: how many bodies, and by crate those that no clause refuses.

    The counts of a crate and its bodies that are out of memory (`memory`) stand in the data alone.
    """
    plant = data("mutations.toml")["plant"]
    judged = [said for said in plant.values() if "tried" in said]
    tried, refused, left = (
        sum(said.get(key, 0) for said in judged) for key in ("tried", "refused", "left")
    )
    same = sum(said.get("same", 0) for said in judged)
    rows = [row(f"`{name}`", said["other"]) for name, said in plant.items() if "other" in said]
    return [
        f"In {len(judged)} crates {tried} bodies were judged, of which a clause refuses {refused}; "
        f"{left} were not judged. {same} answer the same. What else is let through:",
        "",
        *head("crate", "let through"),
        *rows,
    ]


def not_planted() -> list[str]:
    """The crates in which `rt plant` was not run: those where it will be, and why not the others."""
    plant = data("mutations.toml")["plant"]
    waiting = [f"`{crate.name}`" for crate in crates() if crate.name not in plant]
    reasons: dict[str, list[str]] = {}
    for crate in crates():
        if "why_not" in plant.get(crate.name, {}):
            reasons.setdefault(plant[crate.name]["why_not"], []).append(f"`{crate.name}`")
    told = [f"{', '.join(names)} ({reason})" for reason, names in reasons.items()]
    lines = [f"Not run: {'; '.join(told)}."]
    if waiting:
        lines = [f"**Not run yet:** {', '.join(waiting)}.", "", *lines]
    return lines


def mutants(folder: str) -> dict[str, int]:
    """How many mutants a crate has in its folder of that name, for each that has some."""
    counts = {
        crate.name: len(list((TOP / "crates" / crate.name / folder).glob("*.edit")))
        for crate in crates()
    }
    return {name: count for name, count in counts.items() if count}


def counted() -> list[str]:
    """How many mutants there are, and in how many crates."""
    quick, slow = mutants("must-fail"), mutants("wrong")
    none = len(crates()) - len({**quick, **slow})
    return [
        f"There are {sum(quick.values())} in {len(quick)} crates, which the gate tries, and "
        f"{sum(slow.values())} slow ones in {len(slow)}. The other {none} crates are plain data, "
        "laws, tests or a `main` without a contract: a mutant of a definition shows nothing about "
        "code."
    ]


def named() -> list[str]:
    """The wrong bodies that no proof refuses, by topic, each with what refuses it."""
    topics = data("mutations.toml")["named"]
    proved = sum(len(topic["by_proof"]) for topic in topics.values())
    rows = [
        f"A clause, a definition's literal or a type refuses {proved} of them. The others are these.",
        "",
        *head("body", "refused by"),
    ]
    for name, topic in topics.items():
        rows.append(row(f"**{name}**", ""))
        rows += [row(body, refused) for body, refused in topic["else"]]
    return rows


def wrapped(lines: list[str]) -> list[str]:
    """The lines, those that are no rows of a table in 100 columns."""
    found: list[str] = []
    for line in lines:
        if line.startswith("|"):
            found.append(line)
            continue
        part = ""
        for word in line.split():
            if part and len(part) + 1 + len(word) > 100:
                found.append(part)
                part = word
            else:
                part = f"{part} {word}".strip()
        found.append(part)
    return found


def pages() -> dict[Path, str]:
    """Each page that has made parts, as it should be."""
    parts = {
        "PROMISES.md": {"crates": map_of_crates()},
        "MUTATIONS.md": {
            "counts": counted(),
            "plant": planted(),
            "not-run": not_planted(),
            "named": named(),
        },
    }
    found: dict[Path, str] = {}
    for page, made in parts.items():
        text = (TOP / "docs" / page).read_text()
        for name, lines in made.items():
            first, last = f"<!-- made: {name} -->", "<!-- end -->"
            before, _, rest = text.partition(first)
            _, _, after = rest.partition(last)
            text = before + "\n".join([first, "", *wrapped(lines), "", last]) + after
        found[TOP / "docs" / page] = text
    return found


def main(arguments: list[str]) -> int:
    """Writes the pages, or says which differ."""
    if arguments not in ([], ["--check"]):
        print(__doc__)
        return 0 if arguments == ["--help"] else 2
    differ = [page for page, text in pages().items() if page.read_text() != text]
    for page in differ:
        if arguments:
            print(f"{page.relative_to(TOP)} differs from what `make pages` writes", file=sys.stderr)
        else:
            page.write_text(pages()[page])
    return 1 if arguments and differ else 0


if __name__ == "__main__":
    sys.exit(main(sys.argv[1:]))

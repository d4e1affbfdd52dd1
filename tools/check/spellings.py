#!/usr/bin/python3
"""tools/check/spellings.py [COUNT [SEED]]: long documents, spelled by chance, answered with threads
and without.

`bwe solve` reads a text of 256 KiB and more in stretches on threads, where it finds places to cut
it; `bwe-live` reads each text by one thread. A document of `bwe make` is spelled anew: its members
in another order, keys of its groups and reports too, with blanks or none, with names that need
escapes or look like a place to cut; and one in two gets a fault. The table of `solve`, or its
refusal, has to be the first table of `bwe-live`, or its refusal. The last line says how many did not
agree, and the status is 0 where all did.

The programs are crates/bwe/out/bwe and crates/bwe_live/out/bwe_live, or those that BWE and BWE_LIVE
name.
"""

import argparse
import json
import os
import random
import subprocess
import sys
from pathlib import Path
from typing import Any

TOP = Path(__file__).resolve().parents[2]
BWE = os.environ.get("BWE", str(TOP / "crates/bwe/out/bwe"))
BWE_LIVE = os.environ.get("BWE_LIVE", str(TOP / "crates/bwe_live/out/bwe_live"))
COUNT, SECONDS = 20, 120
LONG = 262_144  # bytes from which on a text is read in stretches
LONGER = "-of-a-long-name"  # behind the name of each task
ODD = ["é", '"', "\\", '},{"name"', '}, {"reporter": ', "日本", "\t"]
STYLES: list[dict[str, Any]] = [
    {},
    {"separators": (",", ":")},
    {"indent": 1},
    {"separators": (" , ", " : ")},
]


def made(seed: int) -> dict[str, Any]:
    """A document of `bwe make` that is long, however it is spelled."""
    words = [BWE, "make", str(seed), "1024", "20000"]
    document = json.loads(subprocess.run(words, capture_output=True, check=True).stdout)
    for group in document["groups"]:
        for user in group["users"]:
            for job in user["jobs"]:
                for task in job["tasks"]:
                    task["name"] += LONGER
    for report in document["script"]:
        if "task" in report:
            report["task"] += LONGER
    return document


def reordered(chance: random.Random, whole: dict[str, Any]) -> dict[str, Any]:
    keys = list(whole)
    chance.shuffle(keys)
    return {key: whole[key] for key in keys}


def with_odd_names(chance: random.Random, document: dict[str, Any]) -> None:
    for group in chance.sample(document["groups"], 100):
        group["name"] += chance.choice(ODD)


def with_other_keys(chance: random.Random, document: dict[str, Any]) -> None:
    for member in ("groups", "script"):
        document[member] = [reordered(chance, item) for item in document[member]]


def with_fault(chance: random.Random, document: dict[str, Any]) -> None:
    """One thing that is wrong: a key that is missing, a number, a name that is not there or twice."""
    group, report = chance.choice(document["groups"]), chance.choice(document["script"])
    match chance.randrange(5):
        case 0:
            del group[chance.choice(list(group))]
        case 1:
            report["demand"] = chance.choice(["x", -1, 1.5, None, 10**13])
        case 2:
            report["task"] = "nobody"
        case 3:
            group["name"] = chance.choice(document["groups"])["name"]
        case 4:
            document[chance.choice(["groups", "script"])] = []


def with_broken_text(chance: random.Random, text: str) -> str:
    """The text with a byte less or another one, cut off, or with something behind it."""
    place = chance.randrange(len(text))
    match chance.randrange(3):
        case 0:
            return text[:place] + chance.choice(["", "x", "}", "]", ",", "\\"]) + text[place + 1 :]
        case 1:
            return text[:place]
        case _:
            return text + chance.choice([" ", "\n", "}", " {}"])


def spelled(seed: int) -> bytes:
    chance = random.Random(seed)
    document = reordered(chance, made(seed % 3))
    if chance.random() < 0.5:
        with_odd_names(chance, document)
    if chance.random() < 0.5:
        with_other_keys(chance, document)
    if chance.random() < 0.3:
        with_fault(chance, document)
    text = json.dumps(document, ensure_ascii=chance.random() < 0.5, **chance.choice(STYLES))
    if chance.random() < 0.3:
        text = with_broken_text(chance, text)
    return text.encode(errors="replace")


def answer(words: list[str], given: bytes) -> tuple[int, bytes]:
    ran = subprocess.run(words, input=given, capture_output=True, timeout=SECONDS)
    return ran.returncode, ran.stdout


def agrees(text: bytes) -> bool:
    """Whether the text is answered alike with threads and without."""
    front = b"%d\n" % len(text)
    return answer([BWE, "solve"], text) == answer([BWE_LIVE], front + text)


def main() -> int:
    parser = argparse.ArgumentParser(
        description=__doc__, formatter_class=argparse.RawDescriptionHelpFormatter
    )
    parser.add_argument("count", type=int, nargs="?", default=COUNT, help="how many documents")
    parser.add_argument("seed", type=int, nargs="?", default=0, help="the number of the first")
    words = parser.parse_args()
    texts = ((it, spelled(it)) for it in range(words.seed, words.seed + words.count))
    wrong = [it for it, text in texts if not agrees(text)]
    print(f"{words.count} documents, {len(wrong)} answered otherwise", *wrong)
    return 1 if wrong else 0


if __name__ == "__main__":
    sys.exit(main())

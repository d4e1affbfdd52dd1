#!/usr/bin/python3
"""tools/check/cases.py [--long] [PROGRAM [CASE..]]: runs end-to-end cases on the built programs,
side by side on all processors.

Where PROGRAM is left out these are the built `bwe`, `bwe_solve`, `bwe_live` and `bwe_protocol`. A
program with `live` in its name runs the cases of cases/live, one with `protocol` those of
cases/protocol, one with `solve` those of the command `solve`, without that argument, and any other
one all but cases/live and cases/protocol. A CASE is a folder of cases/,
as solve/reports/drain, or one with cases below it, as solve/json (cases/README.md). Every byte of
standard output and the exit status have to be those of the case, and nothing may come on standard
error; a conversation is held over two pipes (tools/check/conversations.py). Where no case is named,
these follow, for `bwe`:

- examples: each text of examples/ is what the program writes;
- documents: made documents get the answers of a second implementation (tools/check/compare.py);
- hard networks: on networks whose links all close too (tools/check/hard.py);
- runs: made documents are run on threads, and each printed run is checked (tools/check/runs.py);
- summaries: `bulk` ends with the total of the table that `solve` writes of the made document;

for `bwe_solve` the examples of that command, and for `bwe_live`:

- examples: the conversations of examples/live/ are held;
- followed: made conversations, in which each table that is kept by changes has to be the one that
  `bwe solve` writes (tools/check/follow.py);
- posts: the same of 300 posts of documents of version 4 with 1,000 groups.

A case with a file `long`, which says in a sentence why, is left out unless it is named; `--long`
runs these alone, one after the other. One with a file `bounded` is run in an address space of three
times the bytes of its input and 64 MB, which is what a refusal may take; but `bwe_solve`, which
makes a tree of the text, in all there is.

A line for each kind says how many passed, and the last line how many in all; the status is 0
where all did.
"""

import os
import shutil
import subprocess
import sys
import tempfile
from concurrent.futures import ThreadPoolExecutor
from contextlib import contextmanager
from pathlib import Path

import compare
import conversations
import follow
import hard
import runs

HERE = Path(__file__).resolve().parent
TOP = HERE.parents[1]
CASES, EXAMPLES = TOP / "cases", TOP / "examples"
BWE, SOLVE, LIVE, PROTOCOL = (
    TOP / f"crates/{name}/out/{name}" for name in ("bwe", "bwe_solve", "bwe_live", "bwe_protocol")
)
DOCUMENTS, HARD, RUNS, FOLLOWED, POSTS = 200, 40, 3, 40, 300
SUMMED = ["1", "200", "4000"]
SECONDS = 120
# The address space of a program whose case is bounded: so many times its input, and so many bytes.
TIMES, BYTES_BESIDE = 3, 64_000_000

# The arguments for the second parts of examples/, by the ending of their names.
LINES_OF_PARTS = {".tiers": ["tiers"], ".samples": ["estimate", "2", "110"], ".events": ["enforce"]}


def stream(folder, name):
    """A file of the case, or what its script NAME.py writes."""
    with opened(folder, name) as source:
        return source.read()


@contextmanager
def opened(folder, name):
    """A file of the case, or the pipe from its script NAME.py: nothing long is held here. Where a
    program reads no more of it, the script is ended.
    """
    script = folder / f"{name}.py"
    if not script.exists():
        with (folder / name).open("rb") as source:
            yield source
        return
    line, settings = ["/usr/bin/python3", script], {**os.environ, "PYTHONPATH": str(HERE)}
    with tempfile.TemporaryFile() as told:
        with subprocess.Popen(line, stdout=subprocess.PIPE, stderr=told, env=settings) as writer:
            yield writer.stdout
        told.seek(0)
        said = told.read()
        if writer.returncode and b"BrokenPipeError" not in said:
            raise RuntimeError(f"{script} ended with {writer.returncode}: {said[-400:]!r}")


def fault_of_folder(program, folder):
    """What is wrong with the case and the conversation of a folder, or None."""
    faults = [fault_of_case(program, folder)] if (folder / "args").exists() else []
    for name in ("conversation", "conversation.py"):
        if (folder / name).exists():
            faults.append(conversations.fault_of(program, folder / name))
    return next((fault for fault in faults if fault is not None), None)


def fault_of_case(program, folder):
    words = (folder / "args").read_bytes().splitlines()
    bounded = (folder / "bounded").exists() and kind_of(program) != "solve"
    with input_of(folder, bounded) as (source, bound):
        ran = subprocess.run(
            [*bound, program, *words_for(program, words)],
            stdin=source,
            capture_output=True,
            timeout=SECONDS,
        )
    status, wanted = int((folder / "status").read_text()), stream(folder, "stdout")
    if ran.returncode != status:
        return f"status {ran.returncode}, wanted {status}"
    if ran.stderr:
        return f"on standard error: {ran.stderr[:400]!r}"
    return first_difference(ran.stdout, wanted)


@contextmanager
def input_of(folder, bounded):
    """The input of a case, and the words in front of the program that bound its address space. They
    need the length of the input, so that of a bounded case goes into a file first.
    """
    with opened(folder, "stdin") as source:
        if not bounded:
            yield source, []
            return
        with tempfile.TemporaryFile() as whole:
            shutil.copyfileobj(source, whole)
            most = TIMES * whole.tell() + BYTES_BESIDE
            whole.seek(0)
            yield whole, ["prlimit", f"--as={most}"]


def words_for(program, words):
    """The words of a line; the program for `solve` alone takes none."""
    return words[1:] if kind_of(program) == "solve" else words


def kind_of(program):
    """Which cases are for the program, by its name."""
    return next((kind for kind in ("live", "solve", "protocol") if kind in program.name), "cases")


def first_difference(found, wanted):
    """The first line that is not the one that is wanted, or None."""
    if found == wanted:
        return None
    pairs = zip([*found.split(b"\n"), None], [*wanted.split(b"\n"), None])
    number, (one, other) = next(
        (number, pair) for number, pair in enumerate(pairs) if pair[0] != pair[1]
    )
    return f"line {number} is {one and one[:200]!r}, wanted {other and other[:200]!r}"


def examples():
    """The texts of examples/, each with the arguments and the input that give it."""
    for document in sorted(EXAMPLES.glob("*.json")):
        given = document.read_bytes()
        yield document.with_suffix(".txt"), ["solve"], given
        if b'"closings"' in given:
            yield EXAMPLES / f"{document.stem}-check.txt", ["check"], given
        for part in sorted(EXAMPLES.glob(f"{document.stem}.*")):
            if part.suffix in LINES_OF_PARTS:
                words = LINES_OF_PARTS[part.suffix]
                both = b"%d\n%s%s" % (len(given), given, part.read_bytes())
                yield EXAMPLES / f"{document.stem}-{words[0]}.txt", words, both
    yield EXAMPLES / "maintenance-levels.txt", ["levels", "200"], (
        EXAMPLES / "maintenance.json"
    ).read_bytes()


def fault_of_example(program, example):
    text, words, given = example
    line = [program, *words_for(program, words)]
    ran = subprocess.run(line, input=given, capture_output=True, timeout=SECONDS)
    return first_difference(ran.stdout, text.read_bytes())


def fault_of_summary(program, size):
    """What is wrong with the last line of a made document's summary, or None."""
    made, summary, again = (
        written(program, [word, *size], b"") for word in ("make", "bulk", "bulk")
    )
    table = written(program, ["solve"], made)
    return first_difference(summary, again) or first_difference(
        summary.splitlines()[-1], table.splitlines()[-1]
    )


def written(program, words, given):
    return subprocess.run(
        [program, *words], input=given, stdout=subprocess.PIPE, check=True, timeout=SECONDS
    ).stdout


def told(kind, results):
    """Prints a kind's faults, and how many passed and failed; answers these numbers."""
    faults = [(name, fault) for name, fault in results if fault is not None]
    for name, fault in faults:
        print(f"{name}: {fault}")
    print(f"{kind}: {len(results) - len(faults)} passed, {len(faults)} failed", flush=True)
    return len(results) - len(faults), len(faults)


def side_by_side(fault_of, program, items, name_of, at_once=None):
    with ThreadPoolExecutor(at_once or os.cpu_count()) as pool:
        faults = pool.map(lambda item: fault_of(program, item), items)
        return [(name_of(item), fault) for item, fault in zip(items, faults)]


def copied(built, room):
    """A copy, which no later build changes, and which runs where the program has lost its mode."""
    if built.suffix:
        return built
    program = shutil.copyfile(built, Path(room) / built.name)
    os.chmod(program, 0o755)
    return program


def folders_for(built):
    """The folders of cases that are for this program, without the long ones."""
    folders = [folder for folder in folders_of_cases(CASES) if is_for(built, folder)]
    return [folder for folder in folders if not is_long(folder)]


def is_long(folder):
    """Whether a case takes too long to be run each time."""
    return (folder / "long").exists()


def folders_of_cases(below):
    files = [*below.rglob("args"), *below.rglob("conversation*")]
    return sorted({file.parent for file in files})


def is_for(built, folder):
    kind, args = kind_of(built), folder / "args"
    if kind == "solve":
        return args.exists() and args.read_bytes().splitlines() == [b"solve"]
    first = folder.relative_to(CASES).parts[0]
    return kind == (first if first in ("live", "protocol") else "cases")


def counts_of_long(built, room):
    """How many of the long cases for a program passed and failed."""
    folders = [it for it in folders_of_cases(CASES) if is_long(it) and is_for(built, it)]
    program = copied(built, room)
    found = side_by_side(fault_of_folder, program, folders, name_of, at_once=1)
    yield told(f"{kind_of(built)}, long", found)


def name_of(folder):
    return str(folder.relative_to(CASES))


def counts_of(built, named, room):
    """How many passed and failed of each kind, for a program."""
    program = copied(built, room)
    folders = named or folders_for(built)
    found = side_by_side(fault_of_folder, program, folders, name_of)
    kind = kind_of(built)
    yield told(kind, found)
    if named or kind == "protocol":
        return
    if kind == "live":
        talks = sorted(EXAMPLES.glob("live/*.conversation"))
        found = side_by_side(conversations.fault_of, program, talks, lambda it: it.name)
        yield told("examples", found)
        yield told("followed", follow.results(program, solver(room), FOLLOWED))
        yield told("posts", follow.results_of_posts(program, solver(room), POSTS))
        return
    texts = [it for it in examples() if kind == "cases" or it[1] == ["solve"]]
    yield told("examples", side_by_side(fault_of_example, program, texts, lambda it: it[0].name))
    if kind == "solve":
        return
    yield told("documents", compare.results(program, DOCUMENTS))
    yield told("hard networks", hard.results(program, HARD))
    yield told("runs", runs.results(program, RUNS))
    yield told("summaries", [(" ".join(SUMMED), fault_of_summary(program, SUMMED))])


def solver(room):
    """The program whose `solve` says what a table has to be."""
    return copied(BWE, room)


def main(words):
    if words[:1] == ["--help"]:
        print(__doc__)
        return 0
    only_long = words[:1] == ["--long"]
    words = words[only_long:]
    programs = [Path(words[0])] if words else [BWE, SOLVE, LIVE, PROTOCOL]
    named = [folder for name in words[1:] for folder in folders_of_cases(CASES / name)]
    if not named and words[1:]:
        sys.exit(f"cases: no case at {' '.join(words[1:])}")
    counts = []
    with tempfile.TemporaryDirectory() as room:
        for built in programs:
            if not built.is_file():
                sys.exit(f"cases: no program at {built}")
            counts += counts_of_long(built, room) if only_long else counts_of(built, named, room)
    passed, failed = map(sum, zip(*counts))
    print(f"{passed} passed, {failed} failed")
    return 1 if failed else 0


if __name__ == "__main__":
    sys.exit(main(sys.argv[1:]))

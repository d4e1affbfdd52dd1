#!/usr/bin/python3
"""tools/check/growths.py [PROGRAM]: refuses each allocation in turn, and looks at how the program
ends.

`solve` and `run --readers 1 --reads 0` on examples/shared-link.json, and `tiers` and `enforce`
with a second part behind it, are run once for each allocation, which alone is refused (by a small
library that stands before the C library's; `cc` builds it), side by side on all processors. Each
run has to end with status 6 and nothing written, or with status 0 and the right text. The last
lines say how many runs ended how; the status is 0 where all were right.
"""

import collections
import os
import subprocess
import sys
import tempfile
from concurrent.futures import ThreadPoolExecutor
from pathlib import Path

TOP = Path(__file__).resolve().parents[2]

REFUSER = r"""
#define _GNU_SOURCE
#include <dlfcn.h>
#include <errno.h>
#include <stdatomic.h>
#include <stdlib.h>

static atomic_long calls;

static int is_refused(void) {
  const char *at = getenv("REFUSED_CALL");
  long call = atomic_fetch_add(&calls, 1) + 1;
  return at && call == atol(at);
}

void *malloc(size_t size) {
  void *(*next)(size_t) = dlsym(RTLD_NEXT, "malloc");
  if (is_refused()) { errno = ENOMEM; return 0; }
  return next(size);
}

void *realloc(void *old, size_t size) {
  void *(*next)(void *, size_t) = dlsym(RTLD_NEXT, "realloc");
  if (is_refused()) { errno = ENOMEM; return 0; }
  return next(old, size);
}
"""

# After so many calls in a row that changed nothing, all allocations have been refused once.
QUIET = 200


def build(folder):
    source, library = os.path.join(folder, "refuser.c"), os.path.join(folder, "refuser.so")
    with open(source, "w", encoding="ascii") as file:
        file.write(REFUSER)
    subprocess.run(["cc", "-shared", "-fPIC", "-O1", "-o", library, source, "-ldl"], check=True)
    return library


def run(program, words, document, **more):
    ran = subprocess.run(
        [program, *words],
        input=document,
        capture_output=True,
        timeout=60,
        env=dict(os.environ, **more),
    )
    return ran.returncode, ran.stdout


def ends(program, words, document, library):
    """How the runs ended, by kind, and the calls of those that were neither refused nor right."""
    right = run(program, words, document)
    end_of = lambda call: run(program, words, document, LD_PRELOAD=library, REFUSED_CALL=str(call))
    found, others, first, seen = collections.Counter(), [], 1, set()
    with ThreadPoolExecutor(os.cpu_count()) as pool:
        while seen != {right}:
            calls = range(first, first + QUIET)
            seen, first = set(), first + QUIET
            for call, end in zip(calls, pool.map(end_of, calls)):
                seen.add(end)
                kind = "right" if end == right else "refused" if end == (6, b"") else "other"
                found[kind] += 1
                others += [(call, end[0])] * (kind == "other")
    return found, others


def lines_on(document):
    """The lines that are run, each with its input."""
    with_part = lambda part: b"%d\n%s%s" % (len(document), document, part)
    return [
        (["solve"], document),
        (["run", "--readers", "1", "--reads", "0"], document),
        (["tiers"], with_part(b"01\n")),
        (
            ["enforce"],
            with_part(
                b"post 1\nsend 0\npost 2\ndeliver 0\nreply 0\nrestart 0\nsend 0\ndeliver 1\n"
            ),
        ),
    ]


def main(words):
    if words[:1] == ["--help"]:
        print(__doc__)
        return 0
    program = words[0] if words else str(TOP / "crates/bwe/out/bwe")
    document = (TOP / "examples/shared-link.json").read_bytes()
    faults = 0
    with tempfile.TemporaryDirectory() as folder:
        library = build(folder)
        for line, given in lines_on(document):
            found, others = ends(program, line, given, library)
            faults += len(others)
            print(
                f"growths: {' '.join(line)}: {found['refused']} ended with status 6, "
                f"{found['right']} with the right "
                f"text, {len(others)} otherwise {others[:5] or ''}"
            )
    return 1 if faults else 0


if __name__ == "__main__":
    sys.exit(main(sys.argv[1:]))

"""The runner of end-to-end cases, over cases and programs of its own."""

import json

import pytest

import cases
import runs


@pytest.fixture(name="case")
def made_case(tmp_path):
    folder = tmp_path / "solve" / "echo"
    folder.mkdir(parents=True)
    for name, text in (
        ("args", "solve\n"),
        ("stdin", "a\nb\n"),
        ("stdout", "a\nb\n"),
        ("status", "0\n"),
    ):
        (folder / name).write_text(text)
    return folder


def program(tmp_path, body):
    path = tmp_path / "program"
    path.write_text(f"#!/bin/sh\n{body}\n")
    path.chmod(0o755)
    return path


@pytest.mark.parametrize(
    "body, fault",
    [
        ("cat", None),
        ("cat; exit 1", "status 1, wanted 0"),
        ("cat; echo oh >&2", "on standard error: b'oh\\n'"),
        ("echo a; echo c", "line 1 is b'c', wanted b'b'"),
        ("cat; echo", "line 3 is b'', wanted None"),
        ("echo a", "line 1 is b'', wanted b'b'"),
    ],
)
def test_each_byte_and_the_status_have_to_be_those_of_the_case(tmp_path, case, body, fault):
    assert cases.fault_of_case(program(tmp_path, body), case) == fault


def test_a_script_stands_for_a_large_stream(tmp_path, case):
    (case / "stdin").unlink()
    (case / "stdin.py").write_text('print("a\\nb")\n')
    assert cases.fault_of_case(program(tmp_path, "cat"), case) is None


def test_a_bounded_case_has_three_times_its_input_and_64_MB(tmp_path, case):
    (case / "bounded").touch()
    (case / "stdin").unlink()
    (case / "stdin.py").write_text('print("a" * 4_096_000, end="")\n')
    (case / "stdout").write_text(f"{(3 * 4_096_000 + 64_000_000) // 1_024}\n")
    told = program(tmp_path, "cat >/dev/null; ulimit -v")
    assert cases.fault_of_case(told, case) is None


def test_no_two_cases_send_the_same_document_to_the_same_refusal():
    seen = {}
    for folder in cases.folders_of_cases(cases.CASES):
        if not (folder / "stdin").exists() or not (folder / "stdout").exists():
            continue
        answer = (folder / "stdout").read_bytes()
        given = (folder / "stdin").read_bytes()
        try:
            given = repr(json.loads(given, object_pairs_hook=list, parse_float=str))
        except ValueError:
            pass
        words = (folder / "args").read_bytes()
        if answer.startswith((b"refused", b"usage")):
            assert (words, answer, given) not in seen, (folder, seen[words, answer, given])
            seen[words, answer, given] = folder


def test_some_read_has_to_lie_between_the_first_and_the_last_prefix():
    seen = [(None, False, {0: 3, 5: 2}, 5), (None, True, {0: 1, 2: 1, 5: 1}, 5)]
    name, fault = runs.results_of(seen, 1)[-1]
    assert (name, fault) == ("reads between the first and the last prefix", None)
    assert runs.results_of(seen[:1], 1)[-1] == (name, "there are none")


def test_readers_reads_and_reporters_are_as_many_as_the_words_ask_for():
    _, sizes, count, seed = runs.asked(["--reads", "100", "--reporters", "2", "bwe", "20", "7"])
    assert (count, seed) == (20, 7)
    assert sizes.words() == ["run", "--readers", "64", "--reads", "100"]
    document = runs.made_document(runs.random.Random(seed), sizes.reporters)
    assert document["reporters"] == ["r0", "r1"]
    assert {report["reporter"] for report in document["script"]} <= {"r0", "r1"}


READER = [
    "reader 0 length 3",
    "read floor 0 prefix 1 total 10",
    "read floor 1 prefix 2 total 20",
    "final floor 2 prefix 3 total 30",
]


class Tens:
    def of(self, prefix):
        return 10 * prefix


@pytest.mark.parametrize(
    "place, line, fault",
    [
        (0, "reader 0 length 3", None),
        (0, "reader 1 length 3", "length of reader 0, or a line beyond"),
        (1, "read floor 0 prefix 3 total 30", "prefix of read 1 of reader 0"),
        (2, "read floor 0 prefix 2 total 20", "prefix of read 1 of reader 0"),
        (2, "read floor 1 prefix 2 total 21", "total of read 1 of reader 0"),
        (2, "final floor 1 prefix 2 total 20", "word of read 1 of reader 0"),
        (3, "final floor 2 prefix 2 total 20", "end of reader 0"),
        (3, "final floor 2 prefix 4 total 40", "prefix of read 2 of reader 0"),
    ],
)
def test_a_reader_is_judged_without_audit(place, line, fault):
    lines = iter(READER[:place] + [line] + READER[place + 1 :])
    if fault is None:
        runs.check_reader(lines, 0, 2, 3, Tens(), runs.Counter())
    else:
        with pytest.raises(runs.Fault, match=fault):
            runs.check_reader(lines, 0, 2, 3, Tens(), runs.Counter())

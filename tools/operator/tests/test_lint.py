"""lint says what bwe refuses, at the same place and with the same line; and it warns of what bwe
accepts.
"""

import copy
import json
import os
import random
import re
import subprocess
import sys

import jsonschema
import pytest

from bwe_tools import document, hints, json_text, limits, shape, sound
from bwe_tools.program import find_program
from tool_runs import CASES, EXAMPLES, ROOT, needs_program, run

REFUSED = re.compile(r"^\S*?(:(\d+):(\d+))?: fault: (.*) \(bwe: (refused .*)\)$")


# Python reads these for seconds each: `bwe-tools lint` is tried on them by hand.
MILLIONS = ("1048576", "1048577", "4194304", "4194305", "16777216", "16777217")
MOST_FOR_THE_SCHEMA = 10_000_000  # bytes; its library takes minutes for more


def solve_cases():
    """The folders of the end-to-end cases of the command `solve`, without those that take long."""
    return sorted(
        args.parent
        for args in CASES.rglob("args")
        if args.read_bytes().split() == [b"solve"]
        and not (args.parent / "long").exists()
        and not args.parent.name.startswith(MILLIONS)
    )


def stream(folder, name):
    """A file of a case, or what its script writes."""
    script = folder / f"{name}.py"
    if script.exists():
        settings = {**os.environ, "PYTHONPATH": str(ROOT / "tools/check")}
        line = [sys.executable, script]
        return subprocess.run(line, capture_output=True, check=True, env=settings).stdout
    return (folder / name).read_bytes()


def refusal(answer):
    """The line of bwe that lint gives, `accepted` where it gives none."""
    if answer.status == 2:
        first, *others = answer.out.splitlines()
        assert answer.err == "" and all(": fault: " in line for line in others), answer
        assert not any("(bwe: refused" in line for line in others), answer
        return REFUSED.match(first)[5]
    assert answer.status in (0, 1) and answer.err == "", answer
    assert (answer.status == 1) == bool(answer.out)
    assert all(": warning: " in line for line in answer.out.splitlines())
    return "accepted"


@pytest.mark.parametrize("folder", solve_cases(), ids=lambda folder: folder.name)
def test_every_case_of_solve_is_judged_as_bwe_does(folder):
    status = (folder / "status").read_text().strip()
    wanted = stream(folder, "stdout").decode().strip() if status in ("3", "8") else "accepted"
    assert refusal(run("lint", "-", given=stream(folder, "stdin"))) == wanted


def test_there_are_cases():
    assert len(solve_cases()) > 100


@pytest.mark.parametrize("folder", solve_cases(), ids=lambda folder: folder.name)
def test_the_schema_refuses_no_document_that_bwe_accepts(folder):
    given = stream(folder, "stdin")
    if (folder / "status").read_text().strip() == "0" and len(given) < MOST_FOR_THE_SCHEMA:
        schema = json.loads(shape.SCHEMA.read_text())
        jsonschema.Draft202012Validator.check_schema(schema)
        jsonschema.Draft202012Validator(schema).validate(json.loads(given))


# ---- documents changed by chance, against the program

VALUES = [
    0,
    1,
    -1,
    1.5,
    "x",
    "",
    "a b",
    True,
    None,
    [],
    {},
    [[0, 0]],
    [[0, 1]],
    [[0, 0], [5, 5]],
    10**12 + 1,
    2**64,
    1001,
    "fra",
    "fra-par",
    "noc",
    "batch",
    [["x"]],
    [1, 2],
    3,
    2,
]
KEYS = [
    "weight",
    "owner",
    "function",
    "link",
    "capacity",
    "closings",
    "task",
    "demand",
    "name",
    "other",
]


def places(value, place=()):
    yield place
    members = (
        value.items()
        if isinstance(value, dict)
        else enumerate(value)
        if isinstance(value, list)
        else ()
    )
    for step, member in members:
        yield from places(member, (*place, step))


def at(value, place):
    for step in place:
        value = value[step]
    return value


def change(value, chance):
    """Changes one place: it goes, is another value, stands twice, or its object has one key more."""
    *before, step = chance.choice([place for place in places(value) if place])
    parent, kind = at(value, before), chance.random()
    if kind < 0.2:
        del parent[step]
    elif kind < 0.5:
        parent[step] = copy.deepcopy(chance.choice(VALUES))
    elif kind < 0.7 and isinstance(parent, list):
        parent.insert(step, copy.deepcopy(chance.choice(parent)))
    elif kind < 0.8 and isinstance(parent, dict):
        parent[chance.choice(KEYS)] = copy.deepcopy(chance.choice(VALUES))
    elif isinstance(parent[step], int):
        parent[step] *= chance.choice([0, 1000, 10**6])
    elif isinstance(parent[step], str):
        parent[step] = chance.choice([name for name in map(str, VALUES)])
    elif isinstance(parent[step], list):
        chance.shuffle(parent[step])


@needs_program
@pytest.mark.parametrize("seed", range(200))
def test_changed_documents_are_judged_as_bwe_does(seed):
    chance = random.Random(seed)
    names = ("maintenance", "three-site-wan", "shared-link", "b4-paper")
    value = json.loads((EXAMPLES / f"{chance.choice(names)}.json").read_bytes())
    for _ in range(chance.choice([1, 1, 2])):
        change(value, chance)
    data = json.dumps(value).encode()
    told = subprocess.run([find_program(), "solve"], input=data, capture_output=True, check=False)
    wanted = told.stdout.decode().strip() if told.returncode else "accepted"
    assert refusal(run("lint", given=data)) == wanted
    try:
        document.parse(data)
    except document.ToolError as fault:
        assert wanted in str(fault)
    else:
        assert wanted == "accepted"
    assert sound.is_shaped(value) == (not shape.by_schema(value))
    assert shape.faults(value) == shape.by_schema(value)


# ---- what was likely meant

DOCUMENT = """{"version":3,"top":1000,
 "links":[{"name":"fra-ams","from":"fra","to":"ams","capacity":40000000,"owner":"noc"}],
 "groups":[{"name":"g","from":"fra","to":"ams","paths":[[{"weight":1,"links":["fra-ams"]}]],
   "users":[{"name":"u","jobs":[{"name":"j","task":[[0,0],[1000,5000000]],
      "tasks":[{"name":"t","reporter":"hosts"}]}]}]}],
 "reporters":["hosts","noc"],
 "script":[{"reporter":"hosts","task":"t","demand":5000000}]}
"""


@pytest.mark.parametrize(
    "old, new, there, sentence",
    [
        ("40000000", '"40G"', '"40G"', "did you mean 40000000?"),
        ("40000000", "4e7", "4e7", "4e7, and has to be a whole number; did you mean 40000000?"),
        ("40000000", "40000000.0", "40000000.0", "did you mean 40000000?"),
        ('"demand":5000000', '"demand":"5 Gbit/s"', '"5 Gbit/s"', "did you mean 5000000?"),
        (
            '"capacity"',
            '"capacty"',
            '{"name":"fra-ams"',
            'the key "capacity" is missing; did you mean "capacity" for "capacty"?',
        ),
        (
            '"owner"',
            '"ownr"',
            '"ownr"',
            'the key "ownr" is none of /links/0; did you mean "owner"?',
        ),
        (
            '["fra-ams"]',
            '["fra-asm"]',
            '"fra-asm"',
            'there is no link "fra-asm"; did you mean "fra-ams"?',
        ),
        (
            '"reporter":"hosts","task"',
            '"reporter":"host","task"',
            '"host"',
            'did you mean "hosts"?',
        ),
        (
            '"name":"fra-ams"',
            '"name":"fra ams"',
            '"fra ams"',
            'is no name: those are 1 to 64 of letters, digits, - _ and .; did you mean "fra-ams"?',
        ),
        (
            '"version":3',
            '"version":1',
            '"owner"',
            'the key "owner" is of versions 2 to 4 alone; did you mean "version":2?',
        ),
        (
            '"reporter":"hosts","task"',
            '"reporter":"noc","task"',
            '"noc"',
            'owned by "hosts", and "noc" may not report it; did you mean "hosts"?',
        ),
        ("5000000}]}", "5000000},]}", "]}", "a comma stands before the closing ]; leave it out"),
        ('"noc"],', '"noc"]', '"script"', "a comma is missing before this"),
        ('"top":1000', "'top':1000", "'top'", "texts stand between double quotes"),
        ('"top":1000', '"top":NaN', "NaN", "NaN is no number of JSON"),
        ('"top":1000', '"top":1000 // share', "// share", "JSON has no comments"),
        ('"top":1000', '"top":01000', "1000", "a number has no leading zero in JSON"),
        ("5000000}]}", "5000000}]", "", "the text ends before the document does"),
    ],
)
def test_a_fault_is_told_where_it_is_with_what_was_meant(old, new, there, sentence):
    assert DOCUMENT.count(old) == 1
    text = DOCUMENT.replace(old, new)
    answer = run("lint", given=text.encode())
    found = REFUSED.match(answer.out.splitlines()[0])
    assert answer.status == 2 and sentence in found[4], answer.out
    line, column = int(found[2]), int(found[3])
    assert text.split("\n")[line - 1][column - 1 :].startswith(there)


def test_all_faults_are_told_the_one_that_bwe_names_first():
    text = (
        DOCUMENT.replace("40000000", '"40G"')
        .replace('"top":1000', '"top":0')
        .replace('["fra-ams"]', '["fra-asm"]')
        .replace('"name":"u"', '"name":"u u"')
    )
    first, *others = run("lint", given=text.encode()).out.splitlines()
    assert REFUSED.match(first)[5] == "refused 2 shape at /links/0/capacity"
    assert [line.split(" fault: ")[1] for line in others] == [
        '"top" is 0, and has to be from 1 to 1,000,000,000',
        '"u u" is no name: those are 1 to 64 of letters, digits, - _ and .; did you mean "u-u"?',
        'there is no link "fra-asm"; did you mean "fra-ams"?',
        "the share 1000 is above the top, 0",
    ]


def test_many_faults_are_cut_unless_all_are_wanted():
    tasks = ",".join(f'{{"name":"t{number}","reporter":"nobody"}}' for number in range(30))
    text = DOCUMENT.replace('{"name":"t","reporter":"hosts"}', tasks)
    assert run("lint", given=text.encode()).out.count("\n") == 21
    # The 30 tasks, and the report of one that is gone.
    assert run("lint", "--all", given=text.encode()).out.count("\n") == 31


def test_letters_that_look_like_digits_are_likely_meant_as_those():
    assert hints.near("lO", ["l1", "l0", "x0"]) == "l0"
    assert hints.near("lO", ["a", "b"]) is None


@pytest.mark.parametrize(
    "source, target, sentence",
    [
        (
            "ams",
            "fra",
            'link "back" begins at ams, and the path has come to fra; did you mean "fra-ams"?',
        ),
        ("fra", "par", 'the path ends at par, and group "g" goes to ams; did you mean "fra-ams"?'),
    ],
)
def test_a_path_that_is_no_chain_is_told_where_it_breaks(source, target, sentence):
    back = f'"links":[{{"name":"back","from":"{source}","to":"{target}","capacity":1}},'
    text = DOCUMENT.replace('"links":[{"name"', back + '{"name"').replace('["fra-ams"]', '["back"]')
    assert sentence in run("lint", given=text.encode()).out


# ---- warnings


def warned(text):
    answer = run("lint", given=text.encode())
    assert answer.status in (0, 1), answer
    return [line.split(": warning: ")[1] for line in answer.out.splitlines()]


def test_nothing_is_said_of_a_document_that_has_nothing():
    assert run("lint", EXAMPLES / "abilene.json").status == 0


def test_a_group_with_one_path_group_is_warned_of():
    assert warned(DOCUMENT)[0] == (
        'group "g" has one path group: where a link of it closes, it gets no more'
    )


def test_tasks_without_a_report_and_links_without_a_path_are_warned_of():
    silent = DOCUMENT.replace('{"reporter":"hosts","task":"t","demand":5000000}', "")
    assert 'task "t" has no report, so its demand is 0 and it gets nothing' in warned(silent)
    more = DOCUMENT.replace(
        '"links":[{"name"', '"links":[{"name":"spare","from":"fra","to":"ams","capacity":1},{"name"'
    )
    assert 'link "spare" is in no path' in warned(more)


def test_path_groups_that_fall_together_are_warned_of():
    assert any(
        "falls whole with any of its links" in line
        for line in warned((EXAMPLES / "maintenance-without-fallback.json").read_text())
    )
    more = DOCUMENT.replace(
        '"links":[{"name"',
        (
            '"links":[{"name":"par-ams","from":"par","to":"ams","capacity":1},'
            '{"name":"fra-par","from":"fra","to":"par","capacity":1},'
            '{"name":"fra-par-2","from":"fra","to":"par","capacity":1},{"name"'
        ),
    )
    two = more.replace(
        '[[{"weight":1,"links":["fra-ams"]}]]',
        (
            '[[{"weight":1,"links":["fra-par","par-ams"]}],'
            '[{"weight":1,"links":["fra-par-2","par-ams"]}]]'
        ),
    )
    assert 'all path groups of group "g" fall together where link "par-ams" closes' in warned(two)


@pytest.mark.parametrize(
    "site, is_slip", [("Ams", True), ("AMS", True), ("a.ms", True), ("lon", False), ("ams2", False)]
)
def test_sites_that_differ_in_case_or_separators_are_warned_of(site, is_slip):
    more = DOCUMENT.replace(
        '"links":[{"name"',
        f'"links":[{{"name":"more","from":"par","to":"{site}","capacity":1}},{{"name"',
    )
    assert any("looks like a misspelt" in line for line in warned(more)) == is_slip


@pytest.mark.parametrize(
    "site, is_slip",
    [
        ("frankfrt", True),
        ("frankfurrt", True),
        ("franfkurt", True),
        ("frankfart", True),
        ("frankfurt2", False),
        ("frank", False),
    ],
)
def test_a_site_at_an_end_that_is_one_slip_from_another_is_warned_of(site, is_slip):
    text = DOCUMENT.replace('"fra"', '"frankfurt"')
    more = text.replace(
        '"links":[{"name"',
        (
            '"links":[{"name":"a","from":"frankfurt","to":"par","capacity":1},'
            f'{{"name":"b","from":"par","to":"{site}","capacity":1}},{{"name"'
        ),
    )
    assert (
        any(f'site "{site}" looks like a misspelt "frankfurt"' in line for line in warned(more))
        == is_slip
    )


def test_a_short_site_at_an_end_that_is_one_slip_from_another_is_warned_of():
    more = DOCUMENT.replace(
        '"links":[{"name"',
        (
            '"links":[{"name":"a","from":"ams","to":"par","capacity":1},'
            '{"name":"b","from":"par","to":"fre","capacity":1},{"name"'
        ),
    )
    assert any('site "fra" looks like a misspelt "fre"' in line for line in warned(more))


def test_an_even_split_over_unlike_paths_is_warned_of():
    more = DOCUMENT.replace(
        '"links":[{"name"', '"links":[{"name":"thin","from":"fra","to":"ams","capacity":1},{"name"'
    )
    split = more.replace(
        '[[{"weight":1,"links":["fra-ams"]}]]',
        '[[{"weight":1,"links":["fra-ams"]},{"weight":1,"links":["thin"]}]]',
    )
    sentence = 'path group 0 of group "g" splits evenly over paths of unlike capacities'
    assert any(sentence in line for line in warned(split))
    assert not any(
        "evenly" in line for line in warned(split.replace('1,"links":["th', '2,"links":["th'))
    )


def test_a_step_below_a_function_is_warned_of():
    step = DOCUMENT.replace("[[0,0],[1000,5000000]]", "[[0,0],[1,4000000],[1000,5000000]]")
    assert not any("within one share" in line for line in warned(step))
    below = step.replace('"name":"u",', '"name":"u","function":[[0,0],[1000,2000000]],')
    sentence = 'rises from 0 to 4000000 kb/s within one share, so the function of user "u"'
    assert any(sentence in line for line in warned(below))


def test_the_whole_rate_of_a_line_is_warned_of_once():
    assert any("has the whole rate of a line;" in line for line in warned(DOCUMENT))
    found = [
        line
        for line in warned((EXAMPLES / "three-site-wan.json").read_text())
        if "whole rate" in line
    ]
    assert len(found) == 1 and "(and 2 more links)" in found[0]
    assert not any(
        "whole rate" in line for line in warned(DOCUMENT.replace("40000000", "38800000"))
    )


def test_many_warnings_of_a_kind_are_cut_unless_all_are_wanted():
    tasks = ",".join(f'{{"name":"t{number}","reporter":"hosts"}}' for number in range(9))
    text = DOCUMENT.replace(
        '{"name":"t","reporter":"hosts"}', '{"name":"t","reporter":"hosts"},' + tasks
    )
    assert warned(text)[5] == "and 4 more of this kind; --all prints them"
    assert run("lint", "--all", given=text.encode()).out.count("has no report") == 9


# ---- input that cannot be read


@pytest.mark.parametrize(
    "data, sentence",
    [
        (b"", "the file is empty"),
        (b"<graphml/>", "this is XML and not JSON"),
        (b'{"a":"\xff"}', "the byte 255 begins no character of UTF-8"),
        (b"\xef\xbb\xbf{}", "byte order mark"),
        (b'"\\ud800"', "half a pair of \\u escapes is no character"),
        (b"[" * 100_000, "nested more than 127 deep"),
        (b"9" * 10_000, "is too great for JSON"),
    ],
)
def test_what_is_no_json_is_refused_as_that(data, sentence):
    answer = run("lint", given=data)
    assert (
        answer.status == 2
        and sentence in answer.out
        and answer.out.endswith("(bwe: refused 1 not json)\n")
    )


def test_a_document_that_is_too_long_gets_a_sentence():
    data = b" " * (limits.BEFORE_4.size + 1)
    with pytest.raises(document.ToolError, match="longer than 67,108,864 bytes"):
        document.parse(data)


def test_a_file_that_is_not_there_gets_a_sentence(tmp_path):
    answer = run("lint", tmp_path / "none.json")
    assert (
        answer.status == 2
        and answer.err.startswith("bwe-tools: ")
        and "Traceback" not in answer.err
    )


def test_places_are_found_in_the_text():
    text = '{"a": [1, {"b" : "x", "b":\n  [2,  3]}]}'
    places = json_text.Places(text)
    assert [
        text[places.offset_of(place)]
        for place in ((), ("a",), ("a", 0), ("a", 1, "b"), ("a", 1, "b", 1))
    ] == list("{[1[3")
    assert str(places.position_of(("a", 1, "b", 1))) == "2:8"
    assert places.offset_of(("a", 1, "b"), is_key=True) == text.rindex('"b"')


@pytest.mark.parametrize(
    "text",
    [
        '{"a": [1, {"b": "x"}], "c": "\u00e4\u4e16", "d": []}',
        '{"a": "[", "b": ["]", "}{"], "c": 5}',
        '{"a": "x\\"[", "b": [[1]]}',
        '["- 1", ", -2", "00000000000000000000"]',
        '{"a": [-5]}',
        '[1,\n-5]',
        "-5",
        '{"a": 18446744073709551616}',
        "[" * 126 + "]" * 126,
        "[" * 127 + "]" * 127,
        "[" * 128 + "]" * 128,
        '["]", ' * 128 + '"["]' * 128,
        "[1, 2",
    ],
)
def test_a_quick_look_at_a_text_says_what_the_long_one_does(text, monkeypatch):
    def told():
        try:
            offsets = [json_text.Places(text).offset_of((key,)) for key in members]
            return json_text.look_at(text).is_doubtful, offsets
        except json_text.NotJson as fault:
            return str(fault), fault.offset

    members = json.loads(text) if text[0] == "{" else {}
    quick = told()
    monkeypatch.setattr(json_text, "plain_brackets", lambda _: None)
    assert told() == quick


def test_faults_far_down_in_long_lists_are_found():
    """Long lists are looked at many entries at a time."""
    document = json.loads(DOCUMENT)
    job = document["groups"][0]["users"][0]["jobs"][0]
    job["tasks"] = [{"name": f"t{at}", "reporter": "hosts"} for at in range(9_000)]
    document["script"] = [
        {"reporter": "hosts", "task": f"t{at}", "demand": 1} for at in range(9_000)
    ]
    assert "fault" not in run("lint", given=json.dumps(document).encode()).out
    document["script"][2] = {"reporter": "noc", "link": "fra-ams", "capacity": 5}
    document["script"][4_100]["reporter"] = "noc"
    document["script"][4_101]["task"] = "t9000"
    document["script"][8_500]["demand"] = 2 * 10**12
    job["tasks"][8_600]["weight"] = 0
    job["tasks"][8_700]["name"] = "t1 "
    told = run("lint", given=json.dumps(document, indent=0).encode()).out
    assert re.findall(r"fault: (.{24})", told) == [
        '"weight" is 0, and has t',
        '"t1 " is no name: those ',
        '"demand" is 200000000000',
        'there is no task "t9000"',
        'there is no task "t8700"',
        'task "t4100" is owned by',
    ]


def test_a_trace_of_python_is_never_shown():
    """The launcher itself, on arguments and files that are at fault."""
    tool = ROOT / "bwe-tools"
    for words in (
        ["lint", "/none"],
        ["lint", "a", "b"],
        ["lnt"],
        ["from-csv"],
        ["from-graphml", "/none"],
    ):
        told = subprocess.run([tool, *words], capture_output=True, text=True, check=False)
        assert (
            told.returncode == 2
            and told.stdout == ""
            and told.stderr
            and "Traceback" not in told.stderr
        )

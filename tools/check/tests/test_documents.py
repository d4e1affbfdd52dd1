"""What the documents say of the repository, held against it."""

import re
from pathlib import Path

import pages

TOP = Path(__file__).resolve().parents[3]


def layers():
    """The layers of crates.txt in their order, each with its crates and what they stand on."""
    found = {}
    for line in (TOP / "crates.txt").read_text().splitlines():
        if line.startswith("# "):
            found[line[2:]] = {}
        elif line:
            name, below = line.split(":")
            list(found.values())[-1][name.split()[0]] = below.split()
    return found


def test_each_crate_stands_behind_those_that_it_stands_on():
    before = set()
    own = {name for crates in layers().values() for name in crates}
    for crates in layers().values():
        for name, below in crates.items():
            assert own & set(below) <= before, name
            before.add(name)


def test_each_crate_has_a_folder_and_each_folder_a_line():
    own = {name for crates in layers().values() for name in crates}
    assert own == {source.parent.name for source in (TOP / "crates").glob("*/src")}


def test_made_tables_are_what_make_pages_writes():
    assert [page.name for page, text in pages.pages().items() if page.read_text() != text] == []


def test_what_is_said_of_crates_is_said_of_those_of_crates_txt():
    own = [name for crates in layers().values() for name in crates]
    assert list(pages.data("promises.toml")) == own
    assert set(pages.data("mutations.toml")["plant"]) <= set(own)


def test_each_mutant_case_and_test_of_the_report_is_there():
    text = (TOP / "docs/mutations.toml").read_text()
    mutants = {f"{edit.parent.parent.name}/{edit.stem}" for edit in edits()}
    for name in re.findall(r"`([a-z_]+/[A-Za-z0-9_/-]+)`", text):
        path = name if name.startswith("cases/") else f"cases/{name}"
        assert name in mutants or (TOP / path).is_dir(), name
    sources = "".join(file.read_text() for file in TOP.glob("crates/service_cases/src/**/*.rt"))
    for name in re.findall(r"`([a-z]+(?:_[a-z]+){4,})`", text):
        assert f"fn {name}(" in sources, name


def anchor_of(heading):
    """The anchor by which a link leads to a heading."""
    return re.sub(r"[^\w -]", "", heading.lower()).replace(" ", "-")


def test_each_link_between_documents_leads_somewhere():
    found = [*TOP.glob("*.md"), *TOP.glob("docs/*.md"), *TOP.glob("examples/**/*.md")]
    found += [*TOP.glob("cases/*.md"), *TOP.glob("tools/*.md"), *TOP.glob("control/chaos/*.md")]
    for page in found:
        for target, anchor in re.findall(r"\]\(([^)#:]*)(?:#([^)]*))?\)", page.read_text()):
            file = page.parent / target if target else page
            assert file.exists(), f"{page.name}: {target}"
            if anchor:
                headings = re.findall(r"^#+ (.*)$", file.read_text(), re.MULTILINE)
                assert anchor in map(anchor_of, headings), f"{page.name}: {target}#{anchor}"


def test_pages_name_the_version_and_the_kit_of_their_files():
    changes = re.findall(r"^## ([0-9.]+)", (TOP / "CHANGELOG.md").read_text(), re.MULTILINE)
    assert changes[0] == (TOP / "VERSION").read_text().strip()
    named = re.findall(r"rattle-kit-[0-9a-z]+", (TOP / "README.md").read_text())
    assert set(named) == {(TOP / "KIT").read_text().strip()}


def test_each_crate_of_the_kit_that_is_trusted_is_named():
    page = (TOP / "docs/PROMISES.md").read_text()
    trusted = page.split("## Trusted\n")[1].split("\n## ")[0]
    own = {name for crates in layers().values() for name in crates}
    used = {name for crates in layers().values() for below in crates.values() for name in below}
    assert set(re.findall("`([a-z0-9_]+)`", trusted)) == used - own


def edits():
    """The wrong bodies that the gate tries, and those that `tools/build/edits` tries."""
    return [*TOP.glob("crates/*/must-fail/*.edit"), *TOP.glob("crates/*/wrong/*.edit")]


def test_each_edit_changes_what_stands_once():
    for edit in edits():
        text = old = ""
        for line in edit.read_text().splitlines():
            kind, _, rest = line.partition(":")
            rest = rest.removeprefix(" ")
            if kind == "file":
                text = (edit.parent.parent / rest).read_text()
            elif kind == "old":
                old = rest
                assert text.count(old) == 1, f"{edit}: {old}"
            elif kind == "new":
                text = text.replace(old, rest)


def test_no_crate_has_edits_of_both_kinds():
    folders = [edit.parent for edit in edits()]
    crates = [folder.parent.name for folder in dict.fromkeys(folders)]
    assert sorted(crates) == sorted(set(crates))


def words_of_sources():
    """All names in the sources of the crates and of the tools, and those of crates and edits."""
    patterns = ("crates/*/src/**/*.rt", "crates/*/specs/**/*.antt", "crates/*/proofs/**/*.antt")
    patterns += ("tools/**/*.py", "tools/**/*.bash", "control/**/*.py", "control/**/*.yml")
    patterns += ("examples/**/*.py",)
    files = [file for pattern in patterns for file in TOP.glob(pattern)]
    names = {path.parent.name for path in TOP.glob("crates/*/src")}
    scripts = [*TOP.glob("tools/*/*"), *TOP.glob("tools/*/tests/*.py"), *TOP.glob("control/*/*.py")]
    names.update(path.stem for path in [*edits(), *scripts])
    for file in files:
        names.update(re.findall(r"[A-Za-z_][A-Za-z0-9_]*", file.read_text()))
    return names


# Names of systemd, of etcd and of the kernel, which pages on running it have.
OF_OTHERS = {
    "DynamicUser",
    "ETCD_QUOTA_BACKEND_BYTES",
    "LoadCredential",
    "SupplementaryGroups",
    "WatchdogSec",
    "pfifo_fast",
}


def without_affixes(name):
    """The name by which the agent's code has a metric."""
    return name.removeprefix("bwe_agent_").removesuffix("_total")


def test_each_name_of_code_in_a_document_is_one_of_the_sources():
    known = words_of_sources() | {"w_l", "WHAT_IS_WRONG"} | OF_OTHERS
    for page in [TOP / "README.md", TOP / "CONTRIBUTING.md", *TOP.glob("docs/*.md")]:
        text = re.sub("```.*?```", "", page.read_text(), flags=re.DOTALL)
        found = {
            word
            for code in re.findall("`([^`\n]+)`", text)
            for word in re.findall(
                r"[A-Za-z][A-Za-z]*_[A-Za-z0-9_]+|[A-Z][a-z]+(?:[A-Z][a-z]+)+", code
            )
        }
        unknown = {name for name in found if not {name, without_affixes(name)} & known}
        assert not unknown, (page.name, unknown)

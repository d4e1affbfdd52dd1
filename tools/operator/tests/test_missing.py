"""What the tools say on a machine without their packages."""

import ast
import subprocess
import sys

import pytest

from tool_runs import EXAMPLES, ROOT

HIDING = """
import sys

class Hiding:
    def find_spec(self, name, path=None, target=None):
        if name == {module!r}:
            raise ModuleNotFoundError("No module named " + repr(name), name=name)

sys.meta_path.insert(0, Hiding())
"""


def call(tmp_path, module, *words):
    """Calls bwe-tools where a module cannot be imported."""
    (tmp_path / "sitecustomize.py").write_text(HIDING.format(module=module))
    return subprocess.run(
        [ROOT / "bwe-tools", *words],
        env={"PATH": "/usr/bin:/bin", "PYTHONPATH": str(tmp_path), "LC_ALL": "C.UTF-8"},
        capture_output=True,
        text=True,
        check=False,
    )


@pytest.mark.parametrize(
    "module, words",
    [
        ("click", ["--help"]),
        ("jsonschema", ["json", EXAMPLES / "shared-link.txt"]),
        ("networkx", ["from-graphml", EXAMPLES / "abilene.graphml", "-o", "x"]),
        ("networkx", ["from-graphml", "--help"]),
    ],
)
def test_a_missing_package_is_named_in_one_sentence(tmp_path, module, words):
    told = call(tmp_path, module, *words)
    package = f"python3-{module}"
    assert (told.returncode, told.stdout) == (2, "")
    assert (
        told.stderr == f"bwe-tools: this needs the package {package}: apt-get install {package}\n"
    )


def test_help_lists_the_commands_that_miss_a_package(tmp_path):
    told = call(tmp_path, "networkx", "--help")
    assert told.returncode == 0 and told.stderr == ""
    assert "from-graphml  this needs the package python3-networkx" in told.stdout
    assert "lint " in told.stdout


def test_a_command_that_needs_no_missing_package_works(tmp_path):
    told = call(tmp_path, "networkx", "lint", EXAMPLES / "shared-link.json")
    assert "Traceback" not in told.stderr and told.returncode in (0, 1)


def test_each_module_that_a_tool_imports_has_a_row():
    rows = (ROOT / "tools/packages.txt").read_text().splitlines()
    known = {row.split()[1] for row in rows if row and not row.startswith("#")}
    ours = {"bwe_tools"} | set(sys.stdlib_module_names)
    for source in (ROOT / "tools/operator/bwe_tools").rglob("*.py"):
        for node in ast.walk(ast.parse(source.read_text())):
            names = [alias.name for alias in node.names] if isinstance(node, ast.Import) else []
            if isinstance(node, ast.ImportFrom) and not node.level:
                names = [node.module]
            modules = {name.partition(".")[0] for name in names}
            assert modules <= known | ours, (source.name, modules)

"""bwe-tools from-toml: a network that somebody wrote by hand to a document."""

from __future__ import annotations

import click

from bwe_tools.document import ToolError, first_fault, text_of
from bwe_tools.toml_file import read_toml
from bwe_tools.written import Written


@click.command()
@click.argument("file")
def command(file: str) -> None:
    """Make a document of FILE, which is TOML, and write it to standard output.

    \b
    top = 1_000_000                   # the greatest share
    [defaults]
    capacity = "10G"                  # of links; owner, and of tasks demand and reporter
    paths = 3                         # shortest paths of a group, by = "hops", "metric" or "length"
    disjoint = false                  # each path over none of the links of those before it
    [sites]
    fra = [50.1, 8.7]                 # latitude and longitude, for lengths and for pages
    [[links]]
    between = ["fra", "ams"]          # both ways; one way: from and to
    capacity = "40G"                  # and name, owner, metric; reported = 0 is a drain
    [[groups]]
    from = "fra"                      # or between, or pairs = "all", or pairs = [["fra", "ams"]]
    to = "ams"
    paths = [["fra_ams"], ["fra_par", "par_ams"]]  # or how many shortest ones
    [[groups.users]]                  # name, function = [[0, 0], [100, "20G"]]
    name = "web"
    [[groups.users.jobs]]             # name, function, task = the function of each task
    name = "frontend"
    tasks = 20                        # alike ones, or a table each: name, demand, weight, reporter
    demand = "9G"

    A group or user without jobs takes tasks, demand and task itself. examples/europe.toml is a
    whole one.

    Example: bwe-tools from-toml examples/europe.toml > europe.json
    """
    raw = Written(read_toml(file)).raw()
    fault = first_fault(raw)
    if fault is not None:
        raise ToolError(f"{file}: {fault.sentence} (bwe: {fault.refusal})")
    click.echo(text_of(raw), nl=False)

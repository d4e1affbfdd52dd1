"""A table as JSON, by docs/table.schema.json, and back."""

from __future__ import annotations

import json

import jsonschema

from bwe_tools.document import ToolError
from bwe_tools.program import page_file
from bwe_tools.shape import Validator
from bwe_tools.table import (
    Closing,
    GroupAmount,
    LinkLoad,
    PathGroupAmount,
    Table,
    TaskLimit,
    parse_table,
)

SCHEMA = page_file("table.schema.json")


def table_to_json(table: Table) -> dict[str, object]:
    tiers: dict[str, object] = {} if table.tiers is None else {"tiers": table.tiers}
    return tiers | {
        "reports": table.reports,
        "closings": [_closing_to_json(closing) for closing in table.closings],
        "links": [{"name": link.name, "load": link.load} for link in table.links],
        "groups": [
            {
                "name": group.name,
                "share": group.share,
                "amount": group.amount,
                "path_groups": [
                    {"amount": part.amount, "closed_by": part.closed_by}
                    for part in group.path_groups
                ],
            }
            for group in table.groups
        ],
        "tasks": [{"name": task.name, "limit": task.limit} for task in table.tasks],
        "total": table.total,
    }


def _closing_to_json(closing: Closing) -> dict[str, str | int]:
    whole: dict[str, str | int] = {"link": closing.link, "share": closing.share}
    return whole if closing.tier is None else whole | {"tier": closing.tier}


def table_from_json(text: bytes, source: str = "the input") -> Table:
    """The table of its JSON; what the schema does not allow is a ToolError with its place."""
    try:
        whole = json.loads(text)
    except (ValueError, RecursionError) as fault:
        raise ToolError(f"{source} is not JSON: {fault}") from None
    _validate(whole, source)
    groups = [
        GroupAmount(
            group["name"],
            group["share"],
            group["amount"],
            [PathGroupAmount(part["amount"], part["closed_by"]) for part in group["path_groups"]],
        )
        for group in whole["groups"]
    ]
    table = Table(
        whole["reports"],
        whole["total"],
        [
            Closing(closing["link"], closing["share"], closing.get("tier"))
            for closing in whole["closings"]
        ],
        [LinkLoad(link["name"], link["load"]) for link in whole["links"]],
        groups,
        [TaskLimit(task["name"], task["limit"]) for task in whole["tasks"]],
        whole.get("tiers"),
    )
    # The pattern of a name lets a line feed at its end pass, which the text does not.
    if len(parse_table(table.text(), source).closings) != len(table.closings):
        raise ToolError(f"{source}: a closing is of no tier that the table has")
    return table


def _validate(whole: object, source: str) -> None:
    schema = json.loads(SCHEMA.read_text())
    fault = jsonschema.exceptions.best_match(_validator(schema).iter_errors(whole))
    if fault is not None:
        place = "/" + "/".join(map(str, fault.absolute_path))
        raise ToolError(f"{source} is not the JSON of a table: at {place}: {fault.message[:200]}")


def _validator(schema: object) -> Validator:
    """Draft 2020-12, which takes 1.0 for an integer; here only numbers without a fraction are."""
    base = jsonschema.Draft202012Validator
    checker = base.TYPE_CHECKER.redefine(
        "integer", lambda _, value: isinstance(value, int) and not isinstance(value, bool)
    )
    made: Validator = jsonschema.validators.extend(base, type_checker=checker)(schema)
    return made

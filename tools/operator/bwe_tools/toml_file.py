"""TOML files, read by the standard library."""

from __future__ import annotations

import tomllib
from typing import Any

from bwe_tools.document import ToolError, read_bytes


def read_toml(name: str) -> dict[str, Any]:
    try:
        return tomllib.loads(read_bytes(name).decode("utf-8"))
    except UnicodeDecodeError:
        raise ToolError(f"{name} is not UTF-8, and TOML has to be") from None
    except tomllib.TOMLDecodeError as fault:
        raise ToolError(f"{name} is not TOML: {fault}") from None

"""Documents, networks and demand matrices from files."""

from __future__ import annotations

from os import PathLike, fspath
from pathlib import Path
from typing import Optional, Union

from bwe_tools.commands.from_csv import read_links
from bwe_tools.commands.from_graphml import read_graph
from bwe_tools.commands.from_sndlib import read_network
from bwe_tools.convert import Choices, Conversion
from bwe_tools.document import Document, ToolError, document_text, of_raw, parse, read_bytes
from bwe_tools.matrices import read_matrices as matrices_of
from bwe_tools.network import Network
from bwe_tools.rows import read_demands

Name = Union[str, "PathLike[str]"]


def read(path: Name) -> Document:
    """The document of a file; an Error where it is none."""
    name = fspath(path)
    return parse(read_bytes(name), name)


def write(document: Document, path: Name) -> None:
    """Writes a document as `bwe` reads it."""
    try:
        Path(path).write_text(document_text(document), encoding="utf-8")
    except OSError as fault:
        raise ToolError(f"{fspath(path)} cannot be written: {fault.strerror}") from None


def read_graphml(
    path: Name, demands: Optional[Name] = None, choices: Choices = Choices()
) -> Document:
    """A document of a network in GraphML, as the Internet Topology Zoo has them.

    `demands` is a CSV file of from, to and demand; without it each pair of sites wants
    `choices.demand`. A link for which the file has no capacity gets `choices.capacity`.
    """
    return _document(read_graph(fspath(path), "g"), demands, choices)


def read_sndlib(
    path: Name, demands: Optional[Name] = None, choices: Choices = Choices()
) -> Document:
    """A document of a network of SNDlib, in its XML or its native text, with its demands or those
    of a CSV file.
    """
    return _document(read_network(fspath(path), None), demands, choices)


def read_csv(links: Name, demands: Optional[Name] = None, choices: Choices = Choices()) -> Document:
    """A document of two spreadsheets: from, to and capacity; from, to and demand."""
    return _document(read_links(fspath(links), "k"), demands, choices)


def read_matrices(path: Name, document: Document, unit: str = "k") -> dict[str, dict[str, int]]:
    """The demand matrices of a CSV file by name: columns matrix, demand, and task or from and to.

    Each is demands by task in kb/s, of all tasks. A number without a unit counts as `unit` says:
    k, M, G or T.
    """
    return matrices_of(fspath(path), document, unit.lower())


def _document(network: Network, demands: Optional[Name], choices: Choices) -> Document:
    if demands is not None:
        network.demands = read_demands(fspath(demands), network, "k")
    return of_raw(Conversion(network, choices).raw())

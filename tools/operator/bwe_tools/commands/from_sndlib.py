"""bwe-tools from-sndlib: a network of SNDlib, in its XML or its native text, to a document."""

from __future__ import annotations

import re
from decimal import Decimal, InvalidOperation
from math import isfinite
from xml.etree import ElementTree

import click

from bwe_tools import convert, units
from bwe_tools.convert import Choices
from bwe_tools.document import ToolError, read_bytes
from bwe_tools.network import Demand, Line, Network

UNITS = {"KBITPERSEC": "k", "MBITPERSEC": "m", "GBITPERSEC": "g", "TBITPERSEC": "t"}
SECTION = re.compile(r"^([A-Z_]+)\s*\(\s*$(.*?)^\)\s*$", re.MULTILINE | re.DOTALL)


@click.command()
@click.argument("file")
@click.option(
    "--unit",
    type=click.Choice(["k", "M", "G", "T"]),
    help="What its numbers count: kbit/s to Tbit/s.  [default: what the file says, else M]",
)
@convert.options
def command(file: str, unit: str | None, choices: Choices, map_file: str | None) -> None:
    """Make a document of a network of SNDlib and write it to standard output.

    The file is SNDlib's XML or its native text. A link's capacity is the pre-installed one; where
    that is 0, its first module's; where there is none, that of --capacity. A demand is its value
    times its routing unit. A link gets its reverse, unless the file has one that way back. Without
    demands each pair of sites gets the demand of --demand.

    Example: bwe-tools from-sndlib abilene.xml > abilene.json
    """
    network = read_network(file, unit and unit.lower())
    convert.write_document(network, choices, map_file)


def read_network(path: str, unit: str | None) -> Network:
    """The network of a file; `unit` is what its numbers count, None for what the file says."""
    data = read_bytes(path)
    try:
        text = data.decode("utf-8")
    except UnicodeDecodeError:
        text = data.decode("iso-8859-1")
    is_xml = text.lstrip("\ufeff \r\n\t").startswith("<")
    return (read_xml if is_xml else read_native)(text.lstrip("\ufeff"), path, unit)


class Reader:
    """Fills a network, and says where a number or a name of the file is at fault."""

    def __init__(self, path: str, unit: str) -> None:
        self.path, self.size, self.network = path, units.SIZES[unit], Network()

    def number(self, text: str, where: str) -> Decimal:
        try:
            found = Decimal(text)
        except InvalidOperation:
            found = Decimal(-1)
        if not (found.is_finite() and 0 <= found < Decimal(10) ** 18):
            raise ToolError(f"{self.path}: {where}: \"{text}\" is no number from 0 on")
        return found

    def amount(self, number: Decimal, where: str) -> int:
        amount = units.whole(number * self.size)
        if amount > units.MOST:
            raise ToolError(
                f"{self.path}: {where}: {number} is above {units.MOST:,} kb/s, the most of a"
                " document"
            )
        return amount

    def place(self, key: str, east: str, north: str) -> None:
        try:
            self.network.places[key] = float(east), float(north)
            if not all(map(isfinite, self.network.places[key])):
                raise ValueError
        except ValueError:
            raise ToolError(
                f"{self.path}: node \"{key}\": its coordinates are no numbers"
            ) from None

    def link(
        self, key: str, source: str, target: str, installed: str | None, modules: list[str]
    ) -> None:
        where = f"link \"{key}\""
        ends = self.ends(source, target, where)
        sizes = [self.number(size, where) for size in ([installed] if installed else []) + modules]
        capacity = next((self.amount(size, where) for size in sizes if size > 0), None)
        self.network.lines.append(Line(*ends, capacity))

    def demand(self, key: str, source: str, target: str, unit: str, value: str) -> None:
        where = f"demand \"{key}\""
        ends = self.ends(source, target, where)
        if ends[0] == ends[1]:
            raise ToolError(f"{self.path}: {where} goes from \"{source}\" to itself")
        amount = self.amount(self.number(unit, where) * self.number(value, where), where)
        self.network.demands.append(Demand(*ends, amount))

    def ends(self, source: str, target: str, where: str) -> tuple[str, str]:
        """The keys of the two sites of a link or a demand."""
        at = f"{self.path}: {where}"
        return self.network.site(source, at), self.network.site(target, at)


def read_xml(text: str, path: str, unit: str | None) -> Network:
    try:
        root = ElementTree.fromstring(text.encode("utf-8"), ElementTree.XMLParser(encoding="utf-8"))
    except ElementTree.ParseError as fault:
        raise ToolError(f"{path} is not XML: {fault}") from None
    for element in root.iter():
        element.tag = str(element.tag).rpartition("}")[2]
    if root.tag != "network":
        raise ToolError(f"{path} is no network of SNDlib: its first element is \"{root.tag}\"")
    own_unit = UNITS.get(root.findtext("meta/unit", "").strip(), "m")
    reader = Reader(path, unit or own_unit)
    for node in root.iterfind("networkStructure/nodes/node"):
        key = attribute(node, "id", path)
        reader.network.sites[key] = key
        if node.find("coordinates") is not None:
            reader.place(
                key, node.findtext("coordinates/x", ""), node.findtext("coordinates/y", "")
            )
    for link in root.iterfind("networkStructure/links/link"):
        key = attribute(link, "id", path)
        modules = [
            module.findtext("capacity", "").strip()
            for module in link.iterfind("additionalModules/addModule")
        ]
        installed = link.findtext("preInstalledModule/capacity", "").strip()
        reader.link(
            key, child(link, "source", path), child(link, "target", path), installed, modules
        )
    for demand in root.iterfind("demands/demand"):
        key, routed = attribute(demand, "id", path), demand.findtext("routingUnit", "1").strip()
        ends = child(demand, "source", path), child(demand, "target", path)
        reader.demand(key, *ends, routed, child(demand, "demandValue", path))
    return reader.network


def attribute(element: ElementTree.Element, name: str, path: str) -> str:
    if name not in element.attrib:
        raise ToolError(f"{path}: a {element.tag} has no {name}")
    return element.attrib[name]


def child(element: ElementTree.Element, name: str, path: str) -> str:
    found = element.findtext(name)
    if found is None:
        raise ToolError(f"{path}: {element.tag} \"{element.get('id')}\" has no {name}")
    return found.strip()


def read_native(text: str, path: str, unit: str | None) -> Network:
    """The native form: sections of lines, in which names, numbers and parentheses stand apart."""
    plain = "\n".join(line.partition("#")[0].rstrip() for line in text.splitlines())
    sections = {section[1]: section[2] for section in SECTION.finditer(plain)}
    if "NODES" not in sections or "LINKS" not in sections:
        raise ToolError(f"{path} is no network of SNDlib: it has no sections NODES and LINKS")
    meta = re.search(r"^\s*unit\s*=\s*(\w+)", sections.get("META", ""), re.MULTILINE)
    own_unit = UNITS.get(meta[1] if meta else "", "m")
    reader = Reader(path, unit or own_unit)
    for words in lines(sections["NODES"]):
        reader.network.sites[words[0]] = words[0]
        if len(words) == 5:
            reader.place(words[0], words[2], words[3])
    for words in lines(sections["LINKS"]):
        key, source, target, installed, modules = fields(words, path, "link", 9)
        reader.link(key, source, target, installed, modules[4:-1:2])
    for words in lines(sections.get("DEMANDS", "")):
        key, source, target, routed, (value, *_) = fields(words, path, "demand", 7)
        reader.demand(key, source, target, routed, value)
    return reader.network


def lines(section: str) -> list[list[str]]:
    """The lines of a section as words; a parenthesis is a word."""
    words = (re.sub(r"([()])", r" \1 ", line).split() for line in section.splitlines())
    return [line for line in words if line]


def fields(
    words: list[str], path: str, kind: str, least: int
) -> tuple[str, str, str, str, list[str]]:
    """Key, source, target, first number and the rest of `KEY ( SOURCE TARGET ) NUMBER ..`."""
    if len(words) < least or words[1] != "(" or words[4] != ")":
        raise ToolError(
            f"{path}: the {kind} line \"{' '.join(words[:8])}\" is not as SNDlib has them"
        )
    return words[0], words[2], words[3], words[5], words[6:]

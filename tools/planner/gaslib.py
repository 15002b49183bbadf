"""GasLib's network files: the elements that the tools need, with exact decimals and their units."""
from __future__ import annotations

import re
import xml.etree.ElementTree as ElementTree
from dataclasses import dataclass
from fractions import Fraction
from pathlib import Path

from planner.inputs import InputFault, read_bytes

DECIMAL = re.compile(r'[-+]?(?:[0-9]+(?:\.[0-9]*)?|\.[0-9]+)(?:[eE][-+]?[0-9]{1,2})?')
# To m, kg/m^3, Pa; temperatures are shifted.
LENGTHS = {'km': Fraction(1000), 'm': Fraction(1), 'cm': Fraction(1, 100), 'mm': Fraction(1, 1000)}
DENSITIES = {'kg_per_m_cube': Fraction(1)}
PRESSURES = {'bar': Fraction(100_000), 'Pa': Fraction(1)}
TEMPERATURES = {'K': Fraction(0), 'Celsius': Fraction(27315, 100), 'C': Fraction(27315, 100)}


def exact(text: str) -> Fraction | None:
    """The value of a decimal, exactly; `None` where it isn't one."""
    text = text.strip()
    return Fraction(text) if len(text) <= 60 and DECIMAL.fullmatch(text) else None


def word_of(element: ElementTree.Element) -> str:
    """The name of an element without its namespace."""
    return element.tag.rsplit('}', 1)[-1].rsplit(':', 1)[-1]


class ElementFault(InputFault):
    """What is wrong with an element of a file; the file is named by who reads it."""


@dataclass(frozen=True)
class Element:
    """A node or a connection."""
    word: str
    id: str
    attributes: dict[str, str]
    quantities: dict[str, tuple[str, str]]

    def quantity(self, name: str, units: dict[str, Fraction]) -> Fraction | None:
        """A quantity in the unit of the table; `None` where it is absent."""
        if name not in self.quantities:
            return None
        text, unit = self.quantities[name]
        value = exact(text)
        if value is None:
            raise ElementFault(f'{self.word} {self.id}: {name} is no decimal: {text!r}')
        if unit not in units:
            raise ElementFault(f'{self.word} {self.id}: {name} has the unit {unit!r}; read are {", ".join(units)}')
        return value + units[unit] if units is TEMPERATURES else value * units[unit]

    def positive(self, name: str, units: dict[str, Fraction]) -> Fraction:
        """A quantity that must be there and above 0."""
        value = self.quantity(name, units)
        if value is None:
            raise ElementFault(f'{self.word} {self.id} has no {name}')
        if value <= 0:
            raise ElementFault(f'{self.word} {self.id}: {name} is {self.quantities[name][0]}, and must be above 0')
        return value


@dataclass(frozen=True)
class Net:
    nodes: list[Element]
    connections: list[Element]


def _element(path: Path, xml: ElementTree.Element) -> Element:
    quantities: dict[str, tuple[str, str]] = {}
    for child in xml:
        quantities.setdefault(word_of(child), (child.get('value', ''), child.get('unit', '')))
    if not xml.get('id'):
        raise InputFault(f'{path}: a {word_of(xml)} has no id')
    return Element(word_of(xml), xml.get('id'), dict(xml.attrib), quantities)


def read_net(path: Path) -> Net:
    """The nodes and connections of a network file, in file order."""
    try:
        root = ElementTree.fromstring(read_bytes(path))
    except ElementTree.ParseError as fault:
        raise InputFault(f'{path}: no XML: {fault}') from None
    parts: dict[str, list[Element]] = {}
    for child in root:
        if word_of(child) in ('nodes', 'connections') and word_of(child) not in parts:
            parts[word_of(child)] = [_element(path, element) for element in child]
    if 'nodes' not in parts:
        raise InputFault(f'{path}: no element nodes below {word_of(root)}')
    return Net(parts['nodes'], parts.get('connections', []))

"""Flat problems: one text of lines for a whole nomination, as docs/formats.md states it.

`read_flat` answers the problem that the bytes stand for, or raises `FlatFault` with the words that the program says.
"""
from __future__ import annotations

import re
from dataclasses import dataclass, field
from typing import Union

PRESSURE, DIFFERENCE, FLOW = 10 ** 8, 4 * 10 ** 8, 10 ** 12
RESISTANCE, RATIO, TILT = 2 ** 38, 2 ** 20, 65_536
NODES, ARCS, GROUPS, DECISIONS = 2_000, 2_000, 256, 1_024
FILE_BYTES = 67_108_864


class FlatFault(Exception):
    """What is wrong with a flat text, in the words of the program."""


@dataclass(frozen=True)
class Node:
    id: str
    p_min: int
    p_max: int
    b_min: int
    b_max: int


@dataclass(frozen=True)
class Resistance:
    """From lo/den to hi/den, in Pa^2 per (l/h)^2; the square of the far end counts f_lo/f_den to f_hi/f_den times."""
    lo: int
    hi: int
    den: int
    f_lo: int = 1
    f_hi: int = 1
    f_den: int = 1


@dataclass(frozen=True)
class Loss:
    low: int
    high: int


@dataclass(frozen=True)
class Control:
    in_min: int
    out_max: int
    red_min: int
    red_max: int


@dataclass(frozen=True)
class Station:
    in_min: int
    out_max: int
    ratio_num: int
    ratio_den: int
    rise_max: int


Law = Union[Resistance, Loss, Control, Station, None]


@dataclass(frozen=True)
class Arc:
    id: str
    kind: str
    start: int
    end: int
    q_min: int
    q_max: int
    law: Law = None

    @property
    def states(self) -> tuple[str, ...]:
        return STATES.get(self.kind, ('open',))


@dataclass(frozen=True)
class Decision:
    id: str
    words: dict[int, str]


@dataclass(frozen=True)
class Group:
    id: str
    decisions: list[Decision]


@dataclass
class Problem:
    nodes: list[Node] = field(default_factory=list)
    arcs: list[Arc] = field(default_factory=list)
    groups: list[Group] = field(default_factory=list)


STATES = {'valve': ('open', 'closed'), 'control': ('active', 'bypass', 'closed'), 'station': ('active', 'bypass', 'closed')}
WORDS = ('open', 'closed', 'active', 'bypass', 'on')


def allowed_states(arc: Arc, word: str | None) -> tuple[str, ...]:
    """The states of an arc that a decision's word for it leaves, in order; `None` is no word."""
    if word is None:
        return arc.states
    return ('active', 'bypass') if word == 'on' else (word,)


# The fields of each line after its word: an id, or a whole number with its least and greatest value.
ID = 'id'
_FLOWS = [(-FLOW, FLOW), (-FLOW, FLOW)]
_DRAG = [(1, RESISTANCE)] * 3
_TILT = [(1, TILT)] * 3
_ENDS = [ID, ID, ID] + _FLOWS
FIELDS = {
    'node': [ID, (0, PRESSURE), (0, PRESSURE)] + _FLOWS,
    'pipe': _ENDS + _DRAG,
    'short': _ENDS,
    'drag': _ENDS + _DRAG,
    'loss': _ENDS + [(0, DIFFERENCE)] * 2,
    'valve': _ENDS,
    'control': _ENDS + [(0, DIFFERENCE), (0, PRESSURE), (0, DIFFERENCE), (0, DIFFERENCE)],
    'station': _ENDS + [(0, DIFFERENCE), (0, PRESSURE), (1, RATIO), (1, RATIO), (0, DIFFERENCE)],
    'group': [ID],
    'decision': [ID],
    'set': [ID, WORDS],
}
LAWS = {'pipe': Resistance, 'drag': Resistance, 'loss': Loss, 'control': Control, 'station': Station}
NUMBER = re.compile(r'0|-?[1-9][0-9]*')


def is_id(word: str) -> bool:
    raw = word.encode()
    return 1 <= len(raw) <= 200 and all(byte >= 0x21 and byte != 0x7F for byte in raw)


def _within(word: str, limits: object) -> bool:
    if limits is WORDS:
        return True
    return is_id(word) if limits is ID else limits[0] <= int(word[:40]) <= limits[1]


def _has_form(word: str, limits: object) -> bool:
    if limits is WORDS:
        return word in WORDS
    return word != '' and (limits is ID or NUMBER.fullmatch(word) is not None)


def _ordered(law: Law) -> bool:
    if isinstance(law, Resistance):
        return law.lo <= law.hi and law.f_lo <= law.f_hi
    return not isinstance(law, Loss) or law.low <= law.high


@dataclass
class _Rows:
    """The rows of a text as they stand, with names in the place of positions."""
    nodes: list[Node] = field(default_factory=list)
    arcs: list[tuple[str, list]] = field(default_factory=list)
    groups: list[tuple[str, list]] = field(default_factory=list)

    def may_stand(self, kind: str) -> bool:
        if kind == 'node':
            return not self.arcs and not self.groups
        if kind in ('group', 'decision', 'set'):
            parents = {'group': True, 'decision': self.groups, 'set': self.groups and self.groups[-1][1]}
            return bool(parents[kind])
        return not self.groups

    def add(self, kind: str, values: list) -> None:
        if kind == 'node':
            self.nodes.append(Node(*values))
        elif kind == 'group':
            self.groups.append((values[0], []))
        elif kind == 'decision':
            self.groups[-1][1].append((values[0], []))
        elif kind == 'set':
            self.groups[-1][1][-1][1].append((values[0], values[1]))
        else:
            self.arcs.append((kind, values))


def _read_line(rows: _Rows, version: int, number: int, text: str) -> None:
    kind, *words = text.split(' ')
    limits = FIELDS.get(kind)
    if limits and kind == 'pipe' and version == 2:
        limits = limits + _TILT
    if not limits or len(words) != len(limits) or not rows.may_stand(kind) or not all(map(_has_form, words, limits)):
        raise FlatFault(f'line {number}')
    if not all(map(_within, words, limits)):
        raise FlatFault(f'over limit line {number}')
    values = [int(word) if isinstance(limit, tuple) and limit is not WORDS else word for word, limit in zip(words, limits)]
    if kind in LAWS and not _ordered(LAWS[kind](*values[5:])):
        raise FlatFault(f'over limit line {number}')
    rows.add(kind, values)


def _read_rows(text: bytes) -> _Rows:
    lines = text.split(b'\n')
    whole, rest = lines[:-1], lines[-1]
    rows, version, ended = _Rows(), 0, False
    for number, raw in enumerate(whole, 1):
        try:
            line = raw.decode()
        except UnicodeDecodeError:
            raise FlatFault(f'line {number}') from None
        if ended or (not version and line not in ('gasflat 1', 'gasflat 2')):
            raise FlatFault(f'line {number}')
        if not version:
            version = int(line[-1])
        elif line == 'end':
            ended = True
        else:
            _read_line(rows, version, number, line)
    if rest or not ended:
        raise FlatFault(f'line {len(whole) + 1}')
    return rows


def _check_counts(rows: _Rows) -> None:
    decisions = max((len(group[1]) for group in rows.groups), default=0)
    counts = [('nodes', len(rows.nodes), NODES), ('arcs', len(rows.arcs), ARCS), ('groups', len(rows.groups), GROUPS),
              ('decisions', decisions, DECISIONS)]
    for what, count, most in counts:
        if count > most:
            raise FlatFault(f'too many {what}')


def _places(ids: list[str]) -> dict[str, int]:
    places: dict[str, int] = {}
    for place, name in enumerate(ids):
        if name in places:
            raise FlatFault(f'twice named {name}')
        places[name] = place
    return places


def _make_arcs(rows: _Rows, node_at: dict[str, int]) -> list[Arc]:
    arcs: list[Arc] = []
    names: set[str] = set()
    for kind, (name, start, end, q_min, q_max, *numbers) in rows.arcs:
        if name in names:
            raise FlatFault(f'twice named {name}')
        names.add(name)
        for node in (start, end):
            if node not in node_at:
                raise FlatFault(f'no such node {node}')
        if start == end:
            raise FlatFault(f'same ends {name}')
        law = LAWS[kind](*numbers) if kind in LAWS else None
        arcs.append(Arc(name, kind, node_at[start], node_at[end], q_min, q_max, law))
    return arcs


def _make_decision(name: str, sets: list[tuple[str, str]], arcs: list[Arc], arc_at: dict[str, int], taken: set[int]) -> Decision:
    words: dict[int, str] = {}
    for arc_name, word in sets:
        if arc_name not in arc_at:
            raise FlatFault(f'no such arc {arc_name}')
        place = arc_at[arc_name]
        states = STATES.get(arcs[place].kind, ())
        if not states or word not in states + (('on',) if 'active' in states else ()):
            raise FlatFault(f'not active {arc_name}')
        if place in words or place in taken:
            raise FlatFault(f'twice decided {arc_name}')
        words[place] = word
    return Decision(name, words)


def _make_groups(rows: _Rows, arcs: list[Arc]) -> list[Group]:
    arc_at = {arc.id: place for place, arc in enumerate(arcs)}
    groups: list[Group] = []
    taken: set[int] = set()
    for name, decisions in rows.groups:
        if any(group.id == name for group in groups):
            raise FlatFault(f'twice named {name}')
        if not decisions:
            raise FlatFault(f'empty group {name}')
        made: dict[str, Decision] = {}
        for decision, sets in decisions:
            if decision in made:
                raise FlatFault(f'twice named {decision}')
            made[decision] = _make_decision(decision, sets, arcs, arc_at, taken)
        groups.append(Group(name, list(made.values())))
        taken.update(arc for decision in groups[-1].decisions for arc in decision.words)
    return groups


def read_flat(text: bytes) -> Problem:
    """The problem of which the bytes are a text; else `FlatFault` with the first offence."""
    rows = _read_rows(text)
    _check_counts(rows)
    arcs = _make_arcs(rows, _places([node.id for node in rows.nodes]))
    return Problem(rows.nodes, arcs, _make_groups(rows, arcs))

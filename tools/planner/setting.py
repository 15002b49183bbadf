"""Settings: states, flows and squared pressures of a problem, as docs/formats.md states their text."""
from __future__ import annotations

import json
from dataclasses import dataclass
from pathlib import Path

from planner.flat import Problem
from planner.inputs import InputFault, read_bytes


@dataclass(frozen=True)
class Setting:
    states: list[str]
    flows: list[int]
    squares: list[int]
    decisions: list[str]


def read_setting(path: Path, problem: Problem) -> Setting:
    """The setting of a text, each entry at its place."""
    try:
        value = json.loads(read_bytes(path))
        arcs, decisions, nodes = value['arcs'], value['decisions'], value['nodes']
        ids = [entry[0] for entry in arcs], [entry[0] for entry in nodes]
        states, flows = [str(entry[1]) for entry in arcs], [int(entry[2]) for entry in arcs]
        setting = Setting(states, flows, [int(entry[1]) for entry in nodes], [str(entry[1]) for entry in decisions])
    except (ValueError, KeyError, TypeError, IndexError):
        raise InputFault(f'{path}: no setting; wanted is one object with the lists arcs, decisions and nodes') from None
    for what, found, rows in (('arcs', ids[0], problem.arcs), ('nodes', ids[1], problem.nodes)):
        if found != [row.id for row in rows]:
            raise InputFault(f'{path}: the list {what} isn\'t that of this problem')
    return setting

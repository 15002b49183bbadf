"""How a script says that an input is wrong: one line on the standard error that names it, and the exit status 2."""
from __future__ import annotations

import sys
from pathlib import Path
from typing import Callable, NoReturn

from planner.flat import FlatFault, Problem, read_flat


class InputFault(Exception):
    """What is wrong, with the file, line or element in its text."""


def run_script(name: str, work: Callable[[], int]) -> NoReturn:
    """Ends with the status of the work; with 2 and one line where an input is wrong."""
    try:
        status = work()
        sys.stdout.flush()
    except InputFault as fault:
        print(f'{name}: {fault}', file=sys.stderr)
        status = 2
    except BrokenPipeError:
        sys.stderr.close()
        status = 0
    except KeyboardInterrupt:
        status = 130
    sys.exit(status)


def read_bytes(path: Path) -> bytes:
    try:
        return path.read_bytes()
    except OSError as fault:
        raise InputFault(f'{path}: {fault.strerror}') from None


def read_problem(path: Path) -> Problem:
    """The problem of a flat text."""
    try:
        return read_flat(read_bytes(path))
    except FlatFault as fault:
        raise InputFault(f'{path}: no flat problem: {fault}') from None


def write_whole(path: Path, text: bytes) -> None:
    """Writes a file in one piece: beside its place first, so that a stop leaves no half of it."""
    part = path.with_name(path.name + '.part')
    try:
        part.write_bytes(text)
        part.replace(path)
    except OSError as fault:
        part.unlink(missing_ok=True)
        raise InputFault(f'{path}: {fault.strerror}') from None

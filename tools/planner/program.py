"""The proved program: where it stands, and what it says."""
from __future__ import annotations

import os
import shutil
import subprocess
import time
from dataclasses import dataclass
from pathlib import Path

from planner.inputs import InputFault


def find_program(named: str | None) -> str:
    """The program of --program, else of NOMVAL, else the script `nomval` above the tools or on the path."""
    here = Path(__file__).resolve().parent.parent
    tried = [named, os.environ.get('NOMVAL'), str(here.parent / 'nomval'), str(here / 'nomval_cli'), 'nomval']
    for name in tried:
        found = shutil.which(name) if name else None
        if found:
            return os.path.abspath(found)
        if name and name in (named, os.environ.get('NOMVAL')):
            raise InputFault(f'{name}: no program')
    raise InputFault('no program nomval; name one with --program')


@dataclass(frozen=True)
class Answer:
    line: str
    status: int
    seconds: float


def ask(program: str, *words: object, limit: float | None = None) -> Answer:
    """Runs the program once."""
    begun = time.monotonic()
    try:
        ran = subprocess.run([program, *map(str, words)], stdin=subprocess.DEVNULL, stdout=subprocess.PIPE,
                             stderr=subprocess.DEVNULL, timeout=limit)
    except subprocess.TimeoutExpired:
        return Answer('no answer in time', -1, time.monotonic() - begun)
    except OSError as fault:
        raise InputFault(f'{program}: {fault.strerror}') from None
    return Answer(ran.stdout.decode('utf-8', 'replace').rstrip('\n'), ran.returncode, time.monotonic() - begun)

"""What the tests share: where the tools stand, which program they use, and how a tool is run and read as a module."""
from __future__ import annotations

import importlib.machinery
import importlib.util
import os
import subprocess
import sys
import tempfile
import unittest
from pathlib import Path
from types import ModuleType

TOOLS = Path(__file__).resolve().parent.parent
TOP = TOOLS.parent
EXAMPLES = TOP / 'crates' / 'nomval_examples' / 'data'
TOWN = EXAMPLES / 'town'
DATA = TOOLS / 'tests' / 'data'


def find_program() -> str | None:
    """The program that NOMVAL names, or that the gate or `./nomval` built here; proves nothing."""
    named = os.environ.get('NOMVAL')
    built = TOP / 'crates' / 'nomval_cli' / 'out' / 'nomval_cli'
    return named or (str(built) if os.access(built, os.X_OK) else None)


PROGRAM = find_program()
needs_program = unittest.skipUnless(PROGRAM, 'no built program, and NOMVAL names none')


def load(name: str) -> ModuleType:
    """A tool as a module."""
    loader = importlib.machinery.SourceFileLoader(f'tool_{name}', str(TOOLS / name))
    spec = importlib.util.spec_from_loader(loader.name, loader)
    module = importlib.util.module_from_spec(spec)
    sys.modules[loader.name] = module
    loader.exec_module(module)
    return module


def run_tool(name: str, *words: object, cwd: object = None, **env: str) -> subprocess.CompletedProcess:
    """Runs a tool, with the standard output and error as text."""
    given = {**os.environ, 'PYTHONDONTWRITEBYTECODE': '1', **({'NOMVAL': PROGRAM} if PROGRAM else {}), **env}
    return subprocess.run([sys.executable, str(TOOLS / name), *map(str, words)], cwd=cwd, env=given, text=True,
                          stdout=subprocess.PIPE, stderr=subprocess.PIPE, timeout=120)


def run_program(*words: object, cwd: object = None) -> tuple[str, int]:
    """The line that the program says, and its exit status."""
    ran = subprocess.run([PROGRAM, *map(str, words)], cwd=cwd, stdout=subprocess.PIPE, stderr=subprocess.DEVNULL, timeout=120)
    return ran.stdout.decode('latin-1').rstrip('\n'), ran.returncode


class FolderTest(unittest.TestCase):
    """A test with a folder of its own."""

    def setUp(self) -> None:
        room = tempfile.TemporaryDirectory()
        self.addCleanup(room.cleanup)
        self.folder = Path(room.name)

    def write(self, name: str, text: str) -> Path:
        path = self.folder / name
        path.write_bytes(text.encode('latin-1'))
        return path

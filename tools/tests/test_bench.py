"""The benchmark: its problems are problems, the same at each run, and its table has a row for each kind of them."""
from __future__ import annotations

import importlib.machinery
import importlib.util
import random
import subprocess
import sys
import unittest

from tests.support import PROGRAM, TOP, needs_program
from planner.flat import read_flat


def bench():
    loader = importlib.machinery.SourceFileLoader('bench_run', str(TOP / 'bench' / 'run'))
    module = importlib.util.module_from_spec(importlib.util.spec_from_loader(loader.name, loader))
    sys.modules[loader.name] = module
    loader.exec_module(module)
    return module


class ProblemTest(unittest.TestCase):
    def test_problems(self) -> None:
        run = bench()
        for shape in ('line', 'tree', 'mesh', 'stations'):
            for size in (2, 7, 200):
                texts = []
                for _ in range(2):
                    rng = random.Random(f'{shape} {size}')
                    texts.append(run.problem_text(run.shape_of(shape, size, rng), 0.5, rng))
                self.assertEqual(texts[0], texts[1])
                problem = read_flat(texts[0].encode())
                self.assertEqual(len(problem.nodes), size)
                self.assertEqual(sum(node.b_min for node in problem.nodes), 0)


@needs_program
class TableTest(unittest.TestCase):
    def test_table(self) -> None:
        words = [sys.executable, str(TOP / 'bench' / 'run'), '--sizes', '4', '--seeds', '2', '--shapes', 'line', '--loads', '0.5,3', '--solvers', '',
                 '--program', PROGRAM]
        ran = subprocess.run(words, stdout=subprocess.PIPE, stderr=subprocess.PIPE, text=True, timeout=120)
        self.assertEqual((ran.returncode, ran.stderr), (0, ''))
        rows = [line for line in ran.stdout.splitlines() if line.startswith('| line')]
        self.assertEqual([row.split(' | ')[2:4] for row in rows], [['0.5', '2 of 2'], ['3', '2 of 2']])


if __name__ == '__main__':
    unittest.main()

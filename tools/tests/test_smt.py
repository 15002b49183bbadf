"""Problems as SMT-LIB: where a solver is there, it agrees with what is known of the examples and of stored trees."""
from __future__ import annotations

import json
import shutil
import subprocess
import unittest
from pathlib import Path

from tests.support import DATA, EXAMPLES, FolderTest, run_tool

SOLVER = next((words for name, words in [('z3', ['z3', '-T:10']), ('cvc5', ['cvc5', '--tlimit=10000'])] if shutil.which(name)), None)


@unittest.skipUnless(SOLVER, 'neither z3 nor cvc5 is there')
class SolverTest(FolderTest):
    def said(self, problem: Path, *words: str) -> str:
        ran = run_tool('to_smt', problem, *words)
        self.assertEqual((ran.returncode, ran.stderr), (0, ''))
        return subprocess.run([*SOLVER, self.write('p.smt2', ran.stdout)], stdout=subprocess.PIPE, text=True, timeout=30).stdout.strip()

    def test_examples(self) -> None:
        for name, word in [('flow_of_three', 'sat'), ('drop_of_nine', 'unsat'), ('resistor', 'sat'), ('constant_loss', 'sat'),
                           ('control_valve', 'sat'), ('station', 'sat'), ('station_at_seven', 'unsat'), ('valve_in_group', 'sat'),
                           ('no_pressure', 'unsat'), ('two_pipes', 'sat')]:
            with self.subTest(name=name):
                self.assertEqual(self.said(EXAMPLES / f'{name}.flat'), word)

    def test_tolerance(self) -> None:
        self.assertEqual(self.said(EXAMPLES / 'drop_of_nine.flat', '--tol', '7'), 'sat')
        self.assertEqual(self.said(EXAMPLES / 'drop_of_nine.flat', '--tol', '6'), 'unsat')

    def test_refuted_problems_have_no_point(self) -> None:
        cases = [json.loads(line) for line in (DATA / 'trees.jsonl').read_text().splitlines()]
        known = [case['problem'] for case in cases if case['line'] == 'passes' and case['problem'].count('\n') < 9][:12]
        for number, text in enumerate(known):
            with self.subTest(case=number):
                self.assertIn(self.said(self.write('p', text)), ('unsat', 'unknown', 'timeout'))


class RefusalTest(FolderTest):
    def test_names_what_is_wrong(self) -> None:
        ran = run_tool('to_smt', self.write('p', 'gasflat 1\nnode a\nend\n'))
        self.assertEqual((ran.stdout, ran.returncode), ('', 2))
        self.assertIn('p: no flat problem: line 2', ran.stderr)
        self.assertEqual(run_tool('to_smt', EXAMPLES / 'station.flat', '--tol', '-1').returncode, 2)


if __name__ == '__main__':
    unittest.main()

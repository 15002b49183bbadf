"""The second checker: stored trees with the program's answers, rules worked by hand, and spoilt trees beside the program."""
from __future__ import annotations

import json
import random
import unittest

from tests.support import DATA, EXAMPLES, FolderTest, load, needs_program, run_program, run_tool
from tests.spoil import spoil, spoil_problem

check_tree = load('check_tree')
ROW = 'gasflat 1\nnode a 5 5 4 4\nnode b 4 9 -4 -4\npipe p a b -10 10 1 1 1\nend\n'


def cases() -> list[dict]:
    return [json.loads(line) for line in (DATA / 'trees.jsonl').read_text().splitlines()]


class AnswerTest(FolderTest):
    def said(self, problem: str, tree: str) -> tuple[str, int]:
        return check_tree.answer(self.write('p', problem), self.write('t', tree))

    def test_stored_trees(self) -> None:
        for number, case in enumerate(cases(), 1):
            with self.subTest(case=number):
                self.assertEqual(self.said(case['problem'], case['tree']), (case['line'], case['exit']))

    def test_examples(self) -> None:
        for name in ('drop_of_nine', 'station_at_seven'):
            self.assertEqual(check_tree.answer(EXAMPLES / f'{name}.flat', EXAMPLES / f'{name}.tree'), ('passes', 0))

    def test_both_formats(self) -> None:
        self.assertEqual(self.said(ROW, 'gastree 1\nlo q0 4 balance 0\nhi q0 4 balance 0\nclose pipe 0\nend\n'), ('passes', 0))
        self.assertEqual(self.said(ROW, 'gastree 2\nlo q0 64 balance 0\nclose pipe 0\nend\n'), ('passes', 0))
        self.assertEqual(self.said(ROW, 'gastree 2\nlo q0 4 balance 0\nclose pipe 0\nend\n'), ('not refutation bad step line 3', 3))

    def test_first_lines_at_fault(self) -> None:
        for tree, line in [('', 'wrong end line 1'), ('gastree 1', 'not tree line 1'), ('gastree 3\n', 'not tree line 1'),
                           (f'lo q0 {2 ** 127} balance 0\n', 'wide number line 1'), ('gastree 1\nend\n', 'wrong end line 2'),
                           ('gastree 1\nclose cut 1 0\n', 'not tree line 2'), ('gastree 1\nopen\nend\n', 'open line 2'),
                           ('gastree 1\nopen\nend\nx\n', 'not tree line 4'), ('gastree 1\nopen\nend\nopen\n', 'wrong end line 4'),
                           (f'gastree 1\nclose pipe {2 ** 32}\n', 'wide number line 2'), ('gastree 1\nclose way 0\n', 'bad step line 2'),
                           ('gastree 1\nhalve q0\nhalf q0 hi 10\n', 'wrong branch line 3'), ('gastree 1\nhalve q0\nend\n', 'wrong end line 3'),
                           ('gastree 1\nhalve q0\nhalf q0 hi 0\nopen\nhalf q0 lo 1\n', 'wrong branch line 5')]:
            with self.subTest(tree=tree):
                self.assertEqual(self.said(ROW, tree), (f'not refutation {line}', 3))

    def test_inclined_pipes(self) -> None:
        steep = 'gasflat 2\nnode a 5 5 1 1\nnode b 4 9 -1 -1\npipe p a b -10 10 1 1 1 2 2 1\nend\n'
        tree = 'gastree 2\nlo q0 16 balance 0\nhi q0 16 balance 0\nclose pipe 0\nend\n'
        self.assertEqual(self.said(steep, tree), ('passes', 0))
        self.assertEqual(self.said(steep.replace('2 2 1\n', '1 1 1\n'), tree), ('not refutation bad step line 4', 3))
        self.assertEqual(self.said(steep.replace('2 2 1\n', '2 1 1\n'), tree), ('bad problem over limit line 4', 65))

    def test_bad_problems(self) -> None:
        for old, new, line in [('gasflat 1', 'gasflat 3', 'line 1'), ('-4 -4', '-4', 'line 3'), ('node a 5', 'node a 100000001', 'over limit line 2'),
                               ('end\n', '', 'line 5'), ('end\n', 'end\n\n', 'line 6'), ('node b', 'node a', 'twice named a'),
                               ('p a b', 'p a c', 'no such node c'), ('p a b', 'p a a', 'same ends p'), ('end\n', 'group g\nend\n', 'empty group g'),
                               ('1 1 1\n', '1 1 1 1 1 1\n', 'line 4'), ('end', 'group g\ndecision d\nset p open\nend', 'not active p')]:
            with self.subTest(new=new):
                self.assertEqual(self.said(ROW.replace(old, new), ''), (f'bad problem {line}', 65))

    def test_as_a_command(self) -> None:
        ran = run_tool('check_tree', EXAMPLES / 'drop_of_nine.flat', EXAMPLES / 'drop_of_nine.tree')
        self.assertEqual((ran.stdout, ran.returncode, ran.stderr), ('passes\n', 0, ''))
        ran = run_tool('check_tree', 'nowhere', 'nowhere')
        self.assertEqual((ran.stdout, ran.returncode), ('read fault\n', 66))
        self.assertIn('nowhere', ran.stderr)


@needs_program
class ComparedTest(FolderTest):
    """Both checkers on the same bytes; inclined pipes only where the program reads them."""

    def compare(self, problem: str, tree: str) -> None:
        paths = self.write('p', problem), self.write('t', tree)
        self.assertEqual(check_tree.answer(*paths), run_program('check-flat', *paths), (problem, tree))

    def setUp(self) -> None:
        super().setUp()
        new = self.write('p', 'gasflat 2\nend\n')
        self.reads_inclined = run_program('check-flat', new, new)[1] != 65

    def known(self) -> list[dict]:
        return [case for case in cases() if self.reads_inclined or not case['problem'].startswith('gasflat 2')]

    def test_stored_trees(self) -> None:
        for case in self.known():
            self.compare(case['problem'], case['tree'])

    def test_spoilt_trees(self) -> None:
        rng = random.Random(30)
        whole = [case for case in self.known() if case['line'] == 'passes']
        for _ in range(120):
            case = rng.choice(whole)
            self.compare(case['problem'], spoil(case['tree'], rng))

    def test_spoilt_problems(self) -> None:
        rng = random.Random(31)
        known = self.known()
        for _ in range(80):
            case = rng.choice(known)
            problem = spoil_problem(case['problem'], rng)
            if self.reads_inclined or not problem.startswith('gasflat 2\n'):
                self.compare(problem, case['tree'])


if __name__ == '__main__':
    unittest.main()

"""Pictures: what stands in the text for `dot`, and refusals by name; that they can be read is looked at by eye."""
from __future__ import annotations

import shutil
import subprocess
import unittest

from tests.support import EXAMPLES, TOWN, FolderTest, load, run_tool

draw = load('draw')
SMALL = EXAMPLES / 'small_network.flat'


class DrawTest(FolderTest):
    def drawn(self, *words: object) -> str:
        ran = run_tool('draw', *words)
        self.assertEqual((ran.returncode, ran.stderr), (0, ''))
        if shutil.which('dot'):
            subprocess.run(['dot', '-Tsvg'], input=ran.stdout.encode(), stdout=subprocess.DEVNULL, check=True, timeout=60)
        return ran.stdout

    def refused(self, *words: object) -> str:
        ran = run_tool('draw', *words)
        self.assertEqual((ran.stdout, ran.returncode), ('', 2))
        self.assertEqual(ran.stderr.count('\n'), 1)
        return ran.stderr

    def test_problem(self) -> None:
        text = self.drawn(SMALL)
        self.assertEqual(text.count(' -> '), 3)
        self.assertIn('shape="triangle"', text)
        self.assertIn('shape="invtriangle"', text)
        self.assertIn('station', text)

    def test_setting(self) -> None:
        text = self.drawn(SMALL, '--setting', EXAMPLES / 'small_network.json', '--net', EXAMPLES / 'network.net') \
            if 'x=' in (EXAMPLES / 'network.net').read_text().split('innode_1')[1] else self.drawn(SMALL, '--setting', EXAMPLES / 'small_network.json')
        self.assertIn('station active\\n100', text)
        self.assertIn('1000 m³/h', text)

    def test_places(self) -> None:
        self.assertIn("no x and y for the node innode_1", self.refused(SMALL, '--net', EXAMPLES / 'network.net'))
        self.assertIn('town.net: no x and y for the node source_1', self.refused(SMALL, '--net', TOWN / 'town.net'))

    def test_core(self) -> None:
        core = self.write('c', 'gascore 1\nsupply a low\nlaw p\nsquare b low\nend\n')
        text = self.drawn(EXAMPLES / 'drop_of_nine.flat', '--core', core)
        self.assertEqual((text.count(f'fillcolor="{draw.STRONG}"'), text.count(f'[color="{draw.STRONG}"')), (2, 1))
        self.assertIn('b ≥ 4', text)
        self.assertIn('c: line 2', self.refused(SMALL, '--core', core))

    def test_tree(self) -> None:
        text = self.drawn(EXAMPLES / 'station_at_seven.flat', '--tree', EXAMPLES / 'station_at_seven.tree')
        self.assertEqual(text.count(' -> '), 3)
        for part in ('state of c', 'ratio at c', '1 nodes are cut off', 'bypass'):
            self.assertIn(part, text)
        cut = self.write('t', (EXAMPLES / 'station_at_seven.tree').read_text()[:-4])
        self.assertIn('ends before its line `end`', self.refused(EXAMPLES / 'station_at_seven.flat', '--tree', cut))

    def test_names_are_quoted(self) -> None:
        odd = self.write('p', 'gasflat 1\nnode a"\\ 0 9 0 0\nnode b 0 9 0 0\npipe <p> a"\\ b 0 9 1 1 1\nend\n')
        self.drawn(odd)

    def test_inclined(self) -> None:
        self.drawn(self.write('p', 'gasflat 2\nnode a 0 9 0 0\nnode b 0 9 0 0\npipe p a b 0 9 1 1 1 2 3 2\nend\n'))

    def test_refusals(self) -> None:
        self.assertIn('nowhere', self.refused('nowhere'))
        self.assertIn('no flat problem: line 1', self.refused(EXAMPLES / 'network.net'))
        self.assertIn("the list arcs isn't that of this problem", self.refused(SMALL, '--setting', EXAMPLES / 'station.json'))


if __name__ == '__main__':
    unittest.main()

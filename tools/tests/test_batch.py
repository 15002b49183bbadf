"""Many nominations: rows and certificates, going on after a stop, and scenarios that can't be read."""
from __future__ import annotations

import csv
import unittest

from tests.support import TOWN, FolderTest, needs_program, run_tool


@needs_program
class BatchTest(FolderTest):
    def setUp(self) -> None:
        super().setUp()
        for name in ('mild_day', 'cold_day'):
            self.write(f'{name}.scn', (TOWN / f'{name}.scn').read_text())
        self.write('bad.scn', '<boundaryValue>')
        self.out = self.folder / 'out'

    def batch(self, *names: str) -> str:
        ran = run_tool('batch', TOWN / 'town.net', TOWN / 'town.cdf', TOWN / 'town.csv', self.out,
                       *(self.folder / name for name in names))
        self.assertEqual((ran.stdout, ran.returncode), ('', 0), ran.stderr)
        return ran.stderr

    def rows(self) -> dict[str, dict[str, str]]:
        with (self.out / 'answers.csv').open() as file:
            return {row['scenario'].rsplit('/')[-1]: row for row in csv.DictReader(file)}

    def test_rows_and_certificates(self) -> None:
        self.assertIn('4 of 4', self.batch('mild_day.scn', 'cold_day.scn', 'bad.scn', 'nowhere.scn'))
        rows = self.rows()
        found = {name: (row['answer'], row['why'], row['certificate'], row['checked']) for name, row in rows.items()}
        self.assertEqual(found, {
            'mild_day.scn': ('accepted', '', 'mild_day.json', 'yes'), 'cold_day.scn': ('rejected', '', 'cold_day.tree', 'yes'),
            'bad.scn': ('failed', 'bad scn not outline at 15', '', '-'), 'nowhere.scn': ('failed', 'read fault', '', '-')})
        self.assertEqual(sorted(path.name for path in self.out.iterdir()), ['answers.csv', 'cold_day.tree', 'mild_day.json'])

    def test_goes_on(self) -> None:
        self.batch('bad.scn')
        table = self.out / 'answers.csv'
        table.write_text(table.read_text() + 'half a li')
        self.assertIn('1 have a row', self.batch('bad.scn', 'mild_day.scn'))
        self.assertEqual(list(self.rows()), ['bad.scn', 'mild_day.scn'])

    def test_refusals(self) -> None:
        ran = run_tool('batch', 'nowhere', 'none', TOWN / 'town.csv', self.out, self.folder / 'bad.scn')
        self.assertEqual((ran.returncode, self.out.exists()), (2, False))
        self.assertIn('nowhere: no such file', ran.stderr)
        (self.folder / 'other').mkdir()
        twice = self.write('other/bad.scn', '')
        ran = run_tool('batch', TOWN / 'town.net', 'none', TOWN / 'town.csv', self.out, self.folder / 'bad.scn', twice)
        self.assertEqual(ran.returncode, 2)
        self.assertIn('same name', ran.stderr)


if __name__ == '__main__':
    unittest.main()

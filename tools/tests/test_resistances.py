"""The table of resistances: values against the formulas in floating point, outward rounding, and refusals by name."""
from __future__ import annotations

import csv
import io
import math
import unittest
from decimal import Context
from fractions import Fraction

from tests.support import TOWN, FolderTest, load, run_tool

resistances = load('resistances')
GAS = ['--norm-density', '0.785', '--temperature', '283.15', '--critical-pressure', '45.92', '--critical-temperature', '188.55']
NET = '''<network xmlns:f="f"><f:nodes><source id="s"/></f:nodes><f:connections>
<pipe id="p" from="s" to="a"><length unit="km" value="20"/><diameter unit="mm" value="600"/><roughness unit="mm" value="0.05"/></pipe>
<resistor id="r" from="a" to="b"><dragFactor value="8"/><diameter unit="m" value="0.3"/></resistor>
<resistor id="l" from="a" to="b"><pressureLoss unit="bar" value="1"/></resistor>
<compressorStation id="c" from="b" to="d"/></f:connections></network>
'''


def expected(length: float, diameter: float, friction: float, z: float) -> float:
    """The README's formula, by floating point."""
    top = 16 * friction * length * 0.785 * 101325 * z * 283.15
    return top / (math.pi ** 2 * diameter ** 5 * 273.15) / 3.6e6 ** 2


class TableTest(FolderTest):
    def table(self, *words: str, net: str = NET) -> dict[str, list[str]]:
        ran = run_tool('resistances', self.write('n.net', net), *GAS, *words)
        self.assertEqual(ran.returncode, 0, ran.stderr)
        return {row[1]: row for row in csv.reader(io.StringIO(ran.stdout))}

    def refused(self, *words: str, net: str = NET) -> str:
        ran = run_tool('resistances', self.write('n.net', net), *words)
        self.assertEqual((ran.stdout, ran.returncode), ('', 2), ran.stderr)
        self.assertEqual(ran.stderr.count('\n'), 1)
        return ran.stderr

    def test_values(self) -> None:
        rows = self.table('--z', '0.9', '--station', '1.5', '30')
        friction = (2 * math.log10(600 / 0.05) + 1.138) ** -2
        for name, value in [('p', expected(20_000, 0.6, friction, 0.9)), ('r', expected(0.3, 0.3, 8, 0.9))]:
            low, high, den = map(int, rows[name][2:])
            self.assertTrue(low / den < value < high / den, (low, value * den, high))
            self.assertTrue(1000 <= low <= 9999 and high == low + 1)
        self.assertEqual(rows['c'], ['station', 'c', '3', '2', '3000000'])
        self.assertEqual(list(rows), ['p', 'r', 'c'])

    def test_compressibility(self) -> None:
        pc, tc, temperature = 45.92e5, 188.55, 283.15
        z, z0 = (1 + 0.257 * p / pc - 0.533 * p / pc * tc / temperature_at for p, temperature_at in ((50e5, temperature), (101325, 273.15)))
        low, high, den = map(int, self.table('--mean-pressure', '50', '--station', '1.5', '30')['p'][2:])
        value = expected(20_000, 0.6, (2 * math.log10(12_000) + 1.138) ** -2, z / z0)
        self.assertTrue(low / den < value < high / den)

    def test_ranges_and_spread_widen(self) -> None:
        narrow = self.table('--mean-pressure', '50', '--station', '1.5', '30')['p']
        wide = self.table('--mean-pressure', '40:60', '--spread', '2', '--station', '1.5', '30')['p']
        self.assertEqual(narrow[4], wide[4])
        self.assertTrue(int(wide[2]) < 0.98 * int(narrow[2]) and 1.02 * int(narrow[3]) < int(wide[3]))

    def test_logarithm_encloses(self) -> None:
        found = resistances.log10(Fraction(2))
        self.assertTrue(found.low < Fraction(Context(prec=90).log10(2)) < found.high)
        self.assertTrue(found.high - found.low < Fraction(1, 10 ** 58))
        exact = resistances.log10(Fraction(1000))
        self.assertTrue(exact.low < 3 < exact.high)

    def test_pi_is_enclosed(self) -> None:
        self.assertTrue(resistances.PI.low < Fraction(math.pi) + Fraction(1, 10 ** 15) and resistances.PI.low < resistances.PI.high)

    def test_sources_give_the_gas(self) -> None:
        ran = run_tool('resistances', TOWN / 'town.net', '--mean-pressure', '40:70', '--spread', '1', '--station', '1.6', '30')
        self.assertEqual(ran.stdout, (TOWN / 'town.csv').read_text())
        self.assertEqual(ran.stderr, 'resistances: wrote 17 pipes, 1 resistor, 3 stations\n')

    def test_single_stations(self) -> None:
        lines = self.write('stations', '# id ratio rise\nc 4/3 12.5  # bar\n')
        self.assertEqual(self.table('--z', '1', '--stations', str(lines))['c'], ['station', 'c', '4', '3', '1250000'])
        self.assertIn('stations: line 1', self.refused('--z', '1', *GAS, '--stations', str(self.write('stations', 'c 4/3\n'))))
        self.assertIn('no compressorStation e', self.refused('--z', '1', *GAS, '--stations', str(self.write('stations', 'c 2 1\ne 2 1\n'))))

    def test_refusals(self) -> None:
        for old, new, part in [('value="20"', 'value="0"', 'n.net: pipe p: length is 0'), ('<length unit="km" value="20"/>', '', 'pipe p has no length'),
                               ('unit="mm" value="600"', 'unit="inch" value="6"', "diameter has the unit 'inch'"),
                               ('value="0.05"', 'value="x"', 'roughness is no decimal'), ('value="0.05"', 'value="900"', 'roughness is not below the diameter'),
                               ('</network>', '', 'n.net: no XML'), ('value="20"', 'value="1e20"', 'outside what the table holds')]:
            with self.subTest(new=new):
                self.assertIn(part, self.refused('--z', '1', '--station', '2', '3', *GAS, net=NET.replace(old, new)))
        self.assertIn('compressorStation c', self.refused('--z', '1', *GAS))
        self.assertIn('normDensity', self.refused('--z', '1', '--station', '2', '3'))
        self.assertIn('--mean-pressure', self.refused('--station', '2', '3', *GAS))
        self.assertIn('--spread', self.refused('--station', '2', '3', '--z', '1', '--spread', '100', *GAS))


if __name__ == '__main__':
    unittest.main()

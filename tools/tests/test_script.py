"""The script `nomval`: what it says by itself, its hints, and in which order it has crates proved, by a stand-in prover."""
from __future__ import annotations

import os
import shutil
import signal
import subprocess
import time
import unittest

from tests.support import PROGRAM, TOP, TOWN, FolderTest, needs_program

# Notes when each crate began and ended, and how many worked at once; the program it builds says its words.
STAND_IN = '''#!/bin/sh
name=$(basename "$PWD")
echo "begin $name $*" >>"$NOTES"
[ "$name" = "$HANGS" ] && exec /bin/sleep 30
/bin/sleep 0.2
echo "end $name" >>"$NOTES"
[ "$name" != "$FAILS" ] || exit 1
if [ "$1" = run ]; then
    mkdir -p out
    printf '#!/bin/sh\\necho "$@"\\nexit "${ENDS:-0}"\\n' >out/nomval_cli
    chmod +x out/nomval_cli
    exit 64
fi
'''
CRATES = 'low:\nleft: low serde_json\nright: low\nnomval_cli: left right\ntests: nomval_cli\n'


class ScriptTest(FolderTest):
    def setUp(self) -> None:
        super().setUp()
        self.top = self.folder / 'clone'
        shutil.copytree(TOP / 'tools' / 'shell', self.top / 'tools' / 'shell')
        shutil.copy(TOP / 'nomval', self.top / 'nomval')
        (self.top / 'crates.txt').write_text(CRATES)
        for name in ('low', 'left', 'right', 'nomval_cli', 'tests'):
            source = self.top / 'crates' / name / 'src'
            source.mkdir(parents=True)
            (source / 'lib.rt').write_text('// nothing\n')
        tools = self.folder / 'bin'
        tools.mkdir()
        (tools / 'rt').write_text(STAND_IN)
        (tools / 'rt').chmod(0o755)
        # The script looks each second; here it looks more often.
        (tools / 'sleep').write_text('#!/bin/sh\nexec /bin/sleep 0.1\n')
        (tools / 'sleep').chmod(0o755)
        self.notes = self.folder / 'notes'
        self.notes.write_text('')

    def env(self, **more: str) -> dict[str, str]:
        return {**os.environ, 'PATH': f'{self.folder}/bin:{os.environ["PATH"]}', 'NOTES': str(self.notes), 'HANGS': '', 'FAILS': '',
                'NOMVAL_JOBS': '2', 'NOMVAL_PROVE': 'each', **more}

    def run_script(self, *words: object, **env: str) -> subprocess.CompletedProcess:
        return subprocess.run([str(self.top / 'nomval'), *map(str, words)], env=self.env(**env), text=True, cwd=self.folder,
                              stdout=subprocess.PIPE, stderr=subprocess.PIPE, timeout=60)

    def noted(self) -> list[list[str]]:
        return [line.split() for line in self.notes.read_text().splitlines()]


class ProvingTest(ScriptTest):
    def test_proves_what_the_program_needs_in_order(self) -> None:
        ran = self.run_script('a', 'b c')
        self.assertEqual((ran.stdout, ran.returncode), ('a b c\n', 0), ran.stderr)
        begun = [words[1] for words in self.noted() if words[0] == 'begin']
        self.assertEqual(sorted(begun), ['left', 'low', 'nomval_cli', 'right'])
        self.assertEqual((begun[0], begun[3]), ('low', 'nomval_cli'))
        places = {(words[0], words[1]): place for place, words in enumerate(self.noted())}
        self.assertLess(places['end', 'low'], min(places['begin', 'left'], places['begin', 'right']))
        self.assertLess(max(places['end', 'left'], places['end', 'right']), places['begin', 'nomval_cli'])
        self.assertIn('4 of 4 crates', ran.stderr)
        self.assertEqual([path.name for path in self.top.iterdir() if path.name.startswith('nomval-')], [])

    def test_proves_side_by_side(self) -> None:
        self.run_script('a')
        kinds = [words[0] for words in self.noted()]
        if 'begin begin' not in ' '.join(kinds):
            self.skipTest('memory for one crate at a time only')
        lone = next(words for words in self.noted() if words[1] == 'low')
        self.assertEqual(lone[2:], ['lib', '--jobs', '2'])

    def test_proves_once(self) -> None:
        self.run_script('a')
        before = self.notes.read_text()
        self.assertEqual(self.run_script('b').stdout, 'b\n')
        self.assertEqual(self.notes.read_text(), before)
        later = time.time() + 5
        os.utime(self.top / 'crates' / 'low' / 'src' / 'lib.rt', (later, later))
        self.run_script('c')
        self.assertNotEqual(self.notes.read_text(), before)

    def test_says_what_is_not_proved(self) -> None:
        ran = self.run_script('a', FAILS='left')
        self.assertEqual((ran.stdout, ran.returncode), ('', 70))
        self.assertIn('left is not proved', ran.stderr)
        self.assertIn('build.log', ran.stderr)
        self.assertNotIn('begin nomval_cli', self.notes.read_text())

    def test_stops_its_provers(self) -> None:
        started = subprocess.Popen([str(self.top / 'nomval'), 'a'], env=self.env(HANGS='low'), cwd=self.folder,
                                   stdout=subprocess.DEVNULL, stderr=subprocess.DEVNULL)
        while 'begin low' not in self.notes.read_text():
            time.sleep(0.05)
        started.send_signal(signal.SIGTERM)
        self.assertEqual(started.wait(timeout=20), 130)
        self.assertNotIn('end low', self.notes.read_text())

    def test_one_run_over_all(self) -> None:
        ran = self.run_script('a', NOMVAL_PROVE='all')
        self.assertEqual((ran.stdout, ran.returncode), ('a\n', 0), ran.stderr)
        self.assertEqual([words[1:4] for words in self.noted() if words[0] == 'begin'],
                         [['nomval_cli', 'all', 'check'], ['nomval_cli', 'run']])


class SayingTest(ScriptTest):
    def test_help_needs_no_program(self) -> None:
        for word in ('help', '--help', '-h'):
            ran = self.run_script(word)
            self.assertEqual((ran.returncode, ran.stderr), (0, ''))
            for expected in ('solve-flat PROBLEM OUT', '--boxes n', '74', 'make N OUT'):
                self.assertIn(expected, ran.stdout)
        self.assertIn('tolerance', self.run_script('help', 'solve').stdout)
        self.assertEqual(self.run_script('help', 'solv').returncode, 64)
        self.assertEqual(self.notes.read_text(), '')

    def test_passes_output_and_status_on(self) -> None:
        for status in (0, 1, 2, 3):
            ran = self.run_script('one', '  two', ENDS=str(status))
            self.assertEqual((ran.stdout, ran.returncode), ('one   two\n', status))


@needs_program
class HintTest(ScriptTest):
    """Hints to what the real program says."""

    def setUp(self) -> None:
        super().setUp()
        made = self.top / 'crates' / 'nomval_cli' / 'out'
        made.mkdir()
        shutil.copy(PROGRAM, made / 'nomval_cli')
        later = time.time() + 5
        os.utime(made / 'nomval_cli', (later, later))
        for path in TOWN.iterdir():
            shutil.copy(path, self.folder)

    def told(self, status: int, line: str, *words: object) -> str:
        ran = self.run_script(*words)
        self.assertEqual((ran.stdout, ran.returncode), (line, status), ran.stderr)
        self.assertEqual(ran.stderr.count('\n'), 1, ran.stderr)
        return ran.stderr

    def change(self, name: str, old: str, new: str) -> None:
        text = (self.folder / name).read_text()
        self.assertIn(old, text)
        (self.folder / name).write_text(text.replace(old, new, 1))

    def town(self, scenario: str = 'mild_day.scn') -> list[str]:
        return ['flat', 'town.net', scenario, 'town.cdf', 'town.csv', 'out.flat']

    def test_usage(self) -> None:
        self.assertIn('no command was given', self.told(64, 'usage word 0\n'))
        self.assertIn('"slove" is no command', self.told(64, 'usage word 0\n', 'slove', 'a', 'b'))
        self.assertIn('more words are needed', self.told(64, 'usage word 2\n', 'solve-flat', 'a'))
        self.assertIn('behind a "="', self.told(64, 'usage word 3\n', 'solve-flat', 'a', 'b', '--tol=3'))
        self.assertIn('no number within its limits', self.told(64, 'usage word 4\n', 'solve-flat', 'a', 'b', '--boxes', '0'))

    def test_read_faults(self) -> None:
        self.assertIn("nowhere.flat isn't there", self.told(66, 'read fault\n', 'solve-flat', 'nowhere.flat', 'out'))
        self.assertIn('no.csv', self.told(66, 'read fault\n', 'solve', 'town.net', 'mild_day.scn', 'none', 'no.csv', 'out'))
        self.assertIn('is a folder', self.told(66, 'read fault\n', 'solve-flat', self.folder, 'out'))

    def test_write_faults(self) -> None:
        self.assertIn("the folder nowhere isn't there", self.told(74, '', *self.town()[:-1], 'nowhere/out.flat'))
        self.assertIn('is a folder', self.told(74, '', *self.town()[:-1], self.folder))

    def test_places(self) -> None:
        self.change('town.net', '<pipe id="pipe_north"', '\n <pipe id="pipe_north" id="x"')
        ran = self.run_script(*self.town())
        self.assertTrue(ran.stdout.startswith('bad net not outline at '))
        line = 1 + (self.folder / 'town.net').read_text().split(' <pipe id="pipe_north"')[0].count('\n')
        self.assertIn(f'town.net, line {line}, column 2:', ran.stderr)

    def test_files(self) -> None:
        self.change('mild_day.scn', '1000m_cube_per_hour', 'kg_per_s')
        self.assertIn('1000m_cube_per_hour and m_cube_per_hour', self.told(65, 'bad scn bad unit north_gate flow\n', *self.town()))
        self.change('town.net', 'unit="bar" value="40"', 'unit="bar" worth="40"')
        self.assertIn('value or unit', self.told(65, 'bad net missing north_gate pressureMin\n', *self.town()))
        self.change('town.net', 'worth="40"', 'value="40"')
        mixed = ['flat', 'cold_day.scn', 'town.net', 'town.cdf', 'town.csv', 'out']
        self.assertIn('NET SCN CDF RES', self.told(65, 'bad net missing boundaryValue nodes\n', *mixed))
        mixed = ['flat', 'town.net', 'town.cdf', 'town.cdf', 'town.csv', 'out']
        self.assertIn('NET SCN CDF RES', self.told(65, 'bad scn wrong root\n', *mixed))

    def test_tables(self) -> None:
        self.change('town.csv', 'station,station_north,8,5', 'station,station_north,8.5,5')
        self.assertIn('record 2: it is "station,station_north,8.5,5', self.told(65, 'bad res row 2\n', *self.town()))
        self.change('town.csv', 'station,station_north,8.5,5', '#')
        self.change('town.csv', '#,3000000\n', '')
        self.assertIn('station_north', self.told(65, 'bad join no station station_north\n', *self.town()))

    def test_problems_and_settings(self) -> None:
        self.write('p', 'gasflat 1\nnode a 0 9 0\nend\n')
        self.assertIn('line 2: "node a 0 9 0" is no line', self.told(65, 'bad problem line 2\n', 'solve-flat', 'p', 'o'))
        self.write('p', 'gasflat 1\nnode a 0 9 0 0\nend\n')
        self.write('s', '[1]')
        self.assertIn('no object', self.told(65, 'bad setting not setting whole\n', 'replay-flat', 'p', 's'))


if __name__ == '__main__':
    unittest.main()

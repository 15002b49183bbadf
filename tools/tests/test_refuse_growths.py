"""A sample of refused growths of the program, and the faults that the sweep finds in stand-ins."""
from __future__ import annotations

import re
import shutil
import subprocess
import unittest
from pathlib import Path

from tests.support import PROGRAM, FolderTest, load, needs_program, run_tool

refuse_growths = load('refuse_growths')
COMPILER = shutil.which('cc') or shutil.which('gcc') or shutil.which('clang')
needs_compiler = unittest.skipUnless(COMPILER, 'no C compiler')

# Answers `make 3 OUT` with three growths, and gives each back, but for what a macro changes.
STAND_IN = r'''
#include <fcntl.h>
#include <stdlib.h>
#include <unistd.h>
#ifndef WANTING
#define WANTING return 71
#endif
#ifndef LINE
#define LINE "made nodes 3 arcs 2 accepted\n"
#endif
static int say(int file, const char *text, int length) { return write(file, text, length) != length; }
int main(void) {
    char *one = malloc(10), *two = 0;
    if (!one) WANTING;
    if (!(two = malloc(10))) { free(one); WANTING; }
    int out = open("OUT", O_WRONLY | O_CREAT | O_TRUNC, 0666);
    if (say(out, "text", 4)) return 74;
    char *more = realloc(two, 20);
    if (!more) { free(one); free(two); WANTING; }
    free(one);
    free(more);
    return say(1, LINE, sizeof(LINE) - 1);
}
'''


@needs_program
@needs_compiler
class SampleTest(unittest.TestCase):
    def setUp(self) -> None:
        if Path(PROGRAM).read_bytes()[:4] != b'\x7fELF':
            self.skipTest('NOMVAL names a script')

    def sample(self, *words: object) -> list[str]:
        ran = run_tool('refuse_growths', '--sample', 12, *words)
        self.assertEqual((ran.returncode, ran.stderr), (0, ''), ran.stdout)
        return ran.stdout.splitlines()

    def test_each_command(self) -> None:
        for onward, how in ((), ''), (('--onward',), ' with all later ones'):
            lines = self.sample(*onward)
            self.assertEqual(len(lines), len(refuse_growths.COMMANDS))
            form = rf'[a-z-]+ [a-z_0-9.]+: [\d,]+ growths, 12 refused{how}, each answered right \(\d+\) or by want of memory \(\d+\)'
            for line in lines:
                self.assertRegex(line, f'^{form}$')

    def test_some_commands(self) -> None:
        self.assertEqual([line.split()[0] for line in self.sample('make', 'replay')], ['make', 'replay'])


@needs_compiler
class StandInTest(FolderTest):
    def swept(self, *macros: str, words: tuple[object, ...] = ()) -> tuple[int, str, str]:
        source, program = self.write('stand_in.c', STAND_IN), self.folder / 'stand_in'
        subprocess.run([COMPILER, *[f'-D{macro}' for macro in macros], '-o', program, source], check=True)
        ran = run_tool('refuse_growths', 'make', *words, '--program', program)
        return ran.returncode, ran.stdout, ran.stderr

    def differs(self, why: str, *macros: str) -> None:
        status, said, named = self.swept(*macros)
        self.assertEqual(status, 1, said)
        self.assertIn(why, named)

    def test_a_right_one(self) -> None:
        line = 'make 3: 3 growths, 3 refused, each answered right (0) or by want of memory (3)\n'
        self.assertEqual(self.swept(), (0, line, ''))
        self.assertEqual(self.swept(words=('--onward',)), (0, line.replace('refused', 'refused with all later ones'), ''))

    def test_faults_are_found(self) -> None:
        self.differs('growth 1: ended by signal 6', 'WANTING=abort()')
        self.differs("growth 2: status 70 with the line ''", 'WANTING=return 70')
        self.differs("want of memory with the line 'x'", 'WANTING=return say(1, "x", 1), 71')
        self.differs('something else on the standard error', 'WANTING=return say(2, "x", 1), 71')
        self.differs('something else on the standard error', 'WANTING=_exit(71)')
        self.differs('neither as before nor a front', 'WANTING=return say(open("OUT", O_WRONLY), "other", 5), 71')
        self.differs('neither as before nor a front', 'WANTING=return unlink("OUT"), 71')
        self.differs('growth 1: there changed', 'WANTING=return open("there", O_CREAT, 0666), 71')
        self.differs('growth 3: 1 blocks not given back', 'WANTING=return malloc(1) ? 71 : 0')
        self.differs('OUT is another text', 'WANTING=return say(1, LINE, sizeof(LINE) - 1)')
        self.differs('with all memory: status 0 with the line', 'LINE="made nothing\\n"')

    def test_counts_of_faults(self) -> None:
        status, said, named = self.swept('WANTING=return 70')
        self.assertEqual((status, said), (1, 'make 3: 3 growths, 3 refused, 3 answered otherwise\n'))
        self.assertEqual(len(named.splitlines()), 3)

    def test_what_cannot_be_swept(self) -> None:
        self.assertEqual(self.swept(words=('--sample', 0))[0], 2)
        self.assertIn('no such command', self.swept(words=('nothing',))[2])
        script = self.write('script', '#!/bin/sh\n')
        script.chmod(0o755)
        for program, why in ((script, 'a script'), (self.folder, 'no program'), (self.folder / 'nowhere', 'no program'), ('/bin/true', "can't be seen")):
            ran = run_tool('refuse_growths', 'make', '--program', program)
            self.assertEqual((ran.returncode, ran.stdout), (2, ''), ran.stderr)
            self.assertRegex(ran.stderr, f'^refuse_growths: .*{re.escape(why)}.*\n$')


class ChosenTest(unittest.TestCase):
    def test_spread(self) -> None:
        self.assertEqual(refuse_growths.chosen(5, None), [1, 2, 3, 4, 5])
        self.assertEqual(refuse_growths.chosen(5, 9), [1, 2, 3, 4, 5])
        self.assertEqual(refuse_growths.chosen(100, 3), [1, 50, 100])
        self.assertEqual(refuse_growths.chosen(100, 1), [1])


if __name__ == '__main__':
    unittest.main()

"""Each command of the walkthrough does what it says there; the manual page and the installed program are whole."""
from __future__ import annotations

import os
import re
import shutil
import subprocess
import unittest

from tests.support import PROGRAM, TOOLS, TOP, FolderTest, needs_program

WALKTHROUGH = TOP / 'docs' / 'walkthrough.md'


def blocks(text: str) -> list[tuple[str, str]]:
    """The commands, each with what is written after it."""
    found: list[tuple[str, str]] = []
    for block in re.findall(r'```console\n(.*?)```', text, re.S):
        for line in block.splitlines():
            if line.startswith('$ '):
                found.append((line[2:], ''))
            else:
                found[-1] = (found[-1][0], found[-1][1] + line + '\n')
    return found


@needs_program
class WalkthroughTest(FolderTest):
    def test_each_command(self) -> None:
        for name in ('examples', 'tools', 'docs'):
            os.symlink(TOP / name, self.folder / name)
        script = self.write('nomval', f'#!/bin/sh\nexec {PROGRAM} "$@"\n')
        script.chmod(0o755)
        found = blocks(WALKTHROUGH.read_text())
        self.assertGreater(len(found), 8)
        for command, wanted in found:
            if '--svg' in command and not shutil.which('dot'):
                continue
            ran = subprocess.run(['sh', '-c', command], cwd=self.folder, stdout=subprocess.PIPE, stderr=subprocess.STDOUT, text=True,
                                 timeout=120, env={**os.environ, 'NOMVAL': PROGRAM, 'PYTHONDONTWRITEBYTECODE': '1'})
            self.assertEqual(ran.stdout, wanted, command)


class ManualTest(unittest.TestCase):
    @unittest.skipUnless(shutil.which('mandoc') or shutil.which('groff'), 'neither mandoc nor groff is there')
    def test_nothing_to_say(self) -> None:
        words = ['mandoc', '-Tlint'] if shutil.which('mandoc') else ['groff', '-ww', '-mandoc', '-z']
        ran = subprocess.run([*words, str(TOP / 'docs' / 'nomval.1')], stdout=subprocess.PIPE, stderr=subprocess.STDOUT, text=True)
        self.assertEqual(ran.stdout, '')

    def test_forms_are_the_same_everywhere(self) -> None:
        page, script = (TOP / 'docs' / 'nomval.1').read_text(), (TOOLS / 'shell' / 'help.sh').read_text()
        commands = re.search(r"COMMANDS='(.*)'", script)[1]
        self.assertEqual(re.findall(r'^\.Cm ([a-z-]+)$', page.split('.Sh DESCRIPTION')[0], re.M), [*commands.split(), 'help'])
        self.assertIn(f"commands='{commands}'", (TOOLS / 'completion' / 'nomval.bash').read_text())


@needs_program
class InstallTest(FolderTest):
    def test_installed_program_runs(self) -> None:
        env = {**os.environ, 'NOMVAL': PROGRAM}
        subprocess.run([str(TOOLS / 'install'), 'there'], cwd=self.folder, env=env, check=True, stderr=subprocess.DEVNULL)
        prefix, example = self.folder / 'there', str(TOP / 'examples' / 'drop_of_nine')

        def said(*words: str) -> tuple[str, int]:
            ran = subprocess.run(words, cwd=self.folder, stdout=subprocess.PIPE, stderr=subprocess.DEVNULL, text=True, timeout=60)
            return ran.stdout, ran.returncode
        self.assertEqual(said(str(prefix / 'bin' / 'nomval'), 'check-flat', f'{example}.flat', f'{example}.tree'), ('passes\n', 0))
        self.assertEqual(said(str(prefix / 'bin' / 'nomval-check_tree'), f'{example}.flat', f'{example}.tree'), ('passes\n', 0))
        self.assertIn('commit', said(str(prefix / 'bin' / 'nomval'), '--version')[0])
        self.assertTrue((prefix / 'share' / 'man' / 'man1' / 'nomval.1').is_file())
        self.assertEqual(said(str(TOOLS / 'install'))[1], 2)


if __name__ == '__main__':
    unittest.main()

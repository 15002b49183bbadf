"""The gate's script, with a stand-in prover and stand-in tests: its last line and its status."""
from __future__ import annotations

import os
import shutil
import subprocess
import unittest

from tests.support import TOP, FolderTest


class GateTest(FolderTest):
    def run_gate(self, prover: str, tests: str) -> tuple[list[str], int]:
        clone = self.folder / 'clone'
        (clone / '.ci').mkdir(parents=True)
        (clone / 'tools').mkdir()
        shutil.copy(TOP / '.ci' / 'run', clone / '.ci' / 'run')
        for path, text in ((self.folder / 'bin' / 'rt', prover), (clone / 'tools' / 'test', tests)):
            path.parent.mkdir(exist_ok=True)
            path.write_text(f'#!/bin/sh\n{text}\n')
            path.chmod(0o755)
        env = {**os.environ, 'PATH': f'{self.folder}/bin:{os.environ["PATH"]}'}
        ran = subprocess.run([str(clone / '.ci' / 'run')], env=env, stdout=subprocess.PIPE, text=True, timeout=30)
        return ran.stdout.splitlines(), ran.returncode

    def test_both_pass(self) -> None:
        lines, status = self.run_gate('echo "words: $@"; echo "7 passed, 0 failed"', 'echo "with $NOMVAL"')
        self.assertEqual((lines[0], lines[-1], status), ('words: ci', '7 passed, 0 failed', 0))
        self.assertTrue(lines[1].endswith('crates/nomval_cli/out/nomval_cli'))
        self.assertEqual(lines.count('7 passed, 0 failed'), 1)

    def test_a_proof_fails(self) -> None:
        lines, status = self.run_gate('echo "6 passed, 1 failed"; exit 1', 'echo tested')
        self.assertEqual((lines, status), (['6 passed, 1 failed'], 1))

    def test_a_tool_fails(self) -> None:
        lines, status = self.run_gate('echo "7 passed, 0 failed"', 'exit 1')
        self.assertEqual((lines[-1], status), ('0 passed, 1 failed', 1))


if __name__ == '__main__':
    unittest.main()

"""The program over real files that are absent, shut, full, shared, piped or misnamed: each has its documented answer, no
input is harmed, and no file but OUT is touched."""
from __future__ import annotations

import os
import resource
import shutil
import signal
import stat
import subprocess
import threading
import time
import unittest
from dataclasses import dataclass
from pathlib import Path
from typing import Callable

from tests.support import EXAMPLES, PROGRAM, FolderTest, needs_program

SETTING = b'{"arcs":[["p","open",0]],"decisions":[],"nodes":[["a",40],["b",40]]}\n'
MOST_BYTES = 67_108_864
NOBODY = 65534
FOUR = ('network.net', 'scenario.scn', 'decisions.cdf', 'resistances.csv')


@dataclass(frozen=True)
class Command:
    """A command with its input files, whether it makes OUT, and what it answers where nothing is wrong."""
    name: str
    inputs: tuple[str, ...]
    makes: bool
    line: str
    status: int = 0

    def words(self, out: object = 'out', **changed: object) -> list[object]:
        """Its words; `at_1='x'` puts another file in the place of its second input."""
        inputs = [changed.get(f'at_{place}', name) for place, name in enumerate(self.inputs)]
        return [self.name, *inputs, *([out] if self.makes else [])]


COMMANDS = (
    Command('solve-flat', ('two_nodes.flat',), True, 'accepted'),
    Command('solve-flat', ('drop_of_nine.flat',), True, 'rejected', 1),
    Command('replay-flat', ('flow_of_three.flat', 'flow_of_three.json'), False, 'kept'),
    Command('check-flat', ('drop_of_nine.flat', 'drop_of_nine.tree'), False, 'passes'),
    Command('solve', FOUR, True, 'accepted'),
    Command('replay', (*FOUR, 'small_network.json'), False, 'kept'),
    Command('check', (*FOUR, 'drop_of_nine.tree'), False, 'not refutation bad step line 2', 3),
    Command('flat', FOUR, True, 'written'),
)
MAKERS = tuple(command for command in COMMANDS if command.makes)


@needs_program
class HostileTest(FolderTest):
    """A folder with input files, a folder in it, links that lead nowhere, and the program, for whoever may run it."""

    def setUp(self) -> None:
        super().setUp()
        self.folder.chmod(0o777)
        for name in {name for command in COMMANDS for name in command.inputs}:
            shutil.copy(EXAMPLES / name, self.folder)
        self.program = shutil.copy(PROGRAM, self.folder / 'nomval_cli')
        self.program.chmod(0o755)
        (self.folder / 'folder').mkdir()
        (self.folder / 'loop').symlink_to('loop')
        (self.folder / 'dangling').symlink_to('nowhere')

    def state(self) -> dict[bytes, tuple]:
        """Each file of the folder: kind and rights, bytes or target, and, but of a pipe, the time of its last writing."""
        found = {}
        for entry in os.scandir(os.fsencode(self.folder)):
            about = entry.stat(follow_symlinks=False)
            held: object = os.readlink(entry.path) if entry.is_symlink() else about.st_size
            if stat.S_ISREG(about.st_mode) and about.st_size < 10 ** 6 and os.access(entry.path, os.R_OK):
                held = Path(os.fsdecode(entry.path)).read_bytes()
            found[entry.name] = (about.st_mode, held, 0 if stat.S_ISFIFO(about.st_mode) else about.st_mtime_ns)
        return found

    def answered(self, line: str, status: int, *words: object, touched: str | None = None, **how: object) -> None:
        """The program says this line, or nothing, and touches at most one file."""
        before = self.state()
        given = {'stdin': subprocess.DEVNULL, 'stdout': subprocess.PIPE, 'stderr': subprocess.PIPE, **how}
        ran = subprocess.run([self.program, *(word if isinstance(word, bytes) else str(word) for word in words)],
                             cwd=self.folder, timeout=60, **given)
        said = (ran.stdout or b'', ran.returncode, ran.stderr or b'')
        self.assertEqual(said, (line.encode() + b'\n' if line else b'', status, b''), words)
        after = self.state()
        changed = {os.fsdecode(name) for name in {*before, *after} if before.get(name) != after.get(name)}
        self.assertLessEqual(changed, {touched} if touched else set(), words)

    def held(self, name: str) -> bytes:
        return (self.folder / name).read_bytes()

    def wanted(self, command: Command, **changed: object) -> bytes:
        """What OUT holds where nothing is wrong; no file stays."""
        self.answered(command.line, command.status, *command.words('wanted', **changed), touched='wanted')
        text = self.held('wanted')
        (self.folder / 'wanted').unlink()
        return text


def as_nobody() -> dict[str, object]:
    """How a child has no rights beyond those of files."""
    return {'user': NOBODY, 'group': NOBODY, 'extra_groups': []} if os.geteuid() == 0 else {}


def shut(*descriptors: int) -> dict[str, object]:
    """How a child begins with these descriptors closed; its standard output isn't read."""
    return {'stdout': subprocess.DEVNULL, 'stderr': subprocess.DEVNULL, 'preexec_fn': lambda: [os.close(fd) for fd in descriptors]}


class ReadingTest(HostileTest):
    def test_what_cannot_be_read(self) -> None:
        bad = ['nowhere', 'folder', 'folder/', 'dangling', 'loop', 'two_nodes.flat/x', 'nowhere/x', 'n' * 300, 'n/' * 3000]
        bad += [name for name in ('/proc/self/mem',) if os.path.exists(name)]
        for command in COMMANDS:
            for place in range(len(command.inputs)):
                for name in bad:
                    self.answered('read fault', 66, *command.words(**{f'at_{place}': name}))

    def test_without_rights(self) -> None:
        (self.folder / 'folder' / 'x').write_bytes(self.held('two_nodes.flat'))
        shutil.copy(EXAMPLES / 'two_nodes.flat', self.folder / 'shut.flat')
        (self.folder / 'shut.flat').chmod(0)
        (self.folder / 'folder').chmod(0)
        self.addCleanup((self.folder / 'folder').chmod, 0o700)
        for command in COMMANDS:
            for place in range(len(command.inputs)):
                for name in ('shut.flat', 'folder/x'):
                    self.answered('read fault', 66, *command.words(**{f'at_{place}': name}), **as_nobody())

    def test_first_file_first(self) -> None:
        self.write('bad', 'bad')
        self.answered('bad problem line 1', 65, 'check-flat', 'bad', 'nowhere')
        self.answered('read fault', 66, 'check-flat', 'nowhere', 'bad')
        self.answered('bad scn not outline at 0', 65, 'solve', FOUR[0], 'bad', 'nowhere', 'nowhere', 'folder')
        self.answered('read fault', 66, 'solve', FOUR[0], 'nowhere', 'bad', 'bad', 'folder')

    def test_longest(self) -> None:
        for size, line in ((MOST_BYTES, 'bad problem line 1'), (MOST_BYTES + 1, 'too long problem')):
            with open(self.folder / 'long', 'wb') as file:
                file.truncate(size)
            self.answered(line, 65, 'solve-flat', 'long', 'out')
        self.answered('too long tree', 65, 'check-flat', 'two_nodes.flat', 'long')
        self.answered('too long res', 65, 'flat', *FOUR[:3], '/dev/zero', 'out')

    def test_want_of_memory(self) -> None:
        with open(self.folder / 'long', 'wb') as file:
            file.truncate(MOST_BYTES)
        small = {'preexec_fn': lambda: resource.setrlimit(resource.RLIMIT_AS, (2 ** 26, 2 ** 26))}
        self.answered('', 71, 'solve-flat', 'long', 'out', **small)
        self.answered('', 71, 'check-flat', 'two_nodes.flat', 'long', **small)
        self.answered('accepted', 0, 'solve-flat', 'two_nodes.flat', 'out', touched='out', **small)


class WritingTest(HostileTest):
    def test_what_cannot_be_written(self) -> None:
        for command in (*MAKERS, Command('make', ('3',), True, '')):
            for out in ('folder', 'folder/', 'nowhere/out', 'two_nodes.flat/out', 'loop', 'n' * 300, 'n/' * 3000, '/dev/full'):
                self.answered('', 74, *command.words(out))

    def test_without_rights(self) -> None:
        (self.folder / 'shut').write_bytes(b'before')
        (self.folder / 'shut').chmod(0o444)
        (self.folder / 'folder').chmod(0o555)
        (self.folder / 'two_nodes.flat').chmod(0o444)
        for command in MAKERS:
            for out in ('shut', 'folder/out', 'two_nodes.flat'):
                self.answered('', 74, *command.words(out), **as_nobody())
        self.assertEqual(self.held('shut'), b'before')

    def test_what_is_made_or_emptied_first(self) -> None:
        for command in MAKERS:
            text = self.wanted(command)
            (self.folder / 'longer').write_bytes(text * 3)
            self.answered(command.line, command.status, *command.words('longer'), touched='longer')
            self.assertEqual(self.held('longer'), text)
            self.answered(command.line, command.status, *command.words('dangling'), touched='nowhere')
            self.assertEqual(self.held('nowhere'), text)
            (self.folder / 'nowhere').unlink()
            self.answered(command.line, command.status, *command.words(os.devnull))

    def test_limit_of_a_file(self) -> None:
        """A front of so many bytes is written, and then the system refuses; the signal that it sends by default is ignored."""
        for most in (0, 1, 10, len(SETTING) - 1):
            small = {'preexec_fn': lambda: (signal.signal(signal.SIGXFSZ, signal.SIG_IGN),
                                            resource.setrlimit(resource.RLIMIT_FSIZE, (most, most)))}
            self.answered('', 74, 'solve-flat', 'two_nodes.flat', 'out', touched='out', **small)
            self.assertEqual(self.held('out'), SETTING[:most])


class DiskTest(HostileTest):
    """OUT on a disk of its own, which only the program's namespace sees; what it holds is copied out at the end."""

    def on_disk(self, options: str, *words: object) -> tuple[int, bytes | None]:
        script = f'mount -t tmpfs -o {options} none folder || exit 99; "$@"; status=$?; cp folder/out copied 2>/dev/null; exit $status'
        ran = subprocess.run(['unshare', '-rm', 'sh', '-c', script, 'sh', self.program, *map(str, words)], cwd=self.folder,
                             stdin=subprocess.DEVNULL, stdout=subprocess.PIPE, stderr=subprocess.PIPE, timeout=60)
        self.assertEqual((ran.stdout, ran.stderr), (b'', b''), words)
        copied = self.folder / 'copied'
        found = copied.read_bytes() if copied.exists() else None
        copied.unlink(missing_ok=True)
        return ran.returncode, found

    def setUp(self) -> None:
        super().setUp()
        tried = ['unshare', '-rm', 'mount', '-t', 'tmpfs', 'none', str(self.folder / 'folder')]
        if not shutil.which('unshare') or subprocess.run(tried, stderr=subprocess.DEVNULL).returncode:
            self.skipTest('no disk can be mounted: unshare -rm is not there, or not allowed')

    def test_full(self) -> None:
        text = self.wanted(Command('make', ('500',), True, 'made nodes 500 arcs 499 accepted'))
        before = self.state()
        for size in (4096, 8192, 16384):
            self.assertEqual(self.on_disk(f'size={size}', 'make', 500, 'folder/out'), (74, text[:size]))
        self.assertEqual(self.state(), before)

    def test_no_room_for_a_name(self) -> None:
        before = self.state()
        for command in MAKERS:
            self.assertEqual(self.on_disk('nr_inodes=1', *command.words('folder/out')), (74, None))
        self.assertEqual(self.state(), before)

    def test_read_only(self) -> None:
        for command in MAKERS:
            self.assertEqual(self.on_disk('ro', *command.words('folder/out')), (74, None))


class LineTest(HostileTest):
    """A line that can't be said is a fault of writing, whatever the line; OUT is whole then."""

    def each_line(self, **how: object) -> None:
        for command in MAKERS:
            text = self.wanted(command)
            self.answered('', 74, *command.words(), touched='out', **how)
            self.assertEqual(self.held('out'), text)
            (self.folder / 'out').unlink()
        for command in COMMANDS:
            if not command.makes:
                self.answered('', 74, *command.words(), **how)
        for words in ((), ('solve-flat', 'two_nodes.flat'), ('solve-flat', 'nowhere', 'out'), ('solve-flat', 'network.net', 'out')):
            self.answered('', 74, *words, **how)

    def test_closed(self) -> None:
        self.each_line(**shut(1))
        self.each_line(**shut(0, 1))
        self.each_line(**shut(0, 1, 2))

    def test_full(self) -> None:
        with open('/dev/full', 'wb') as full:
            self.each_line(stdout=full)

    def test_read_only(self) -> None:
        with open(self.folder / 'two_nodes.flat', 'rb') as file:
            self.each_line(stdout=file)

    def test_nobody_reads(self) -> None:
        for restored in (True, False):
            reader, writer = os.pipe()
            os.close(reader)
            try:
                self.each_line(stdout=writer, restore_signals=restored)
            finally:
                os.close(writer)

    def test_closed_and_no_out(self) -> None:
        for command in MAKERS:
            self.answered('', 74, *command.words('folder'), **shut(0, 1, 2))


class SharedTest(HostileTest):
    """OUT may be an input file, and one file several inputs: an input is what it held before."""

    def test_out_is_an_input(self) -> None:
        for command in MAKERS:
            text = self.wanted(command)
            for name in command.inputs:
                held = self.held(name)
                self.answered(command.line, command.status, *command.words(name), touched=name)
                self.assertEqual(self.held(name), text)
                (self.folder / name).write_bytes(held)

    def test_out_is_an_input_by_another_name(self) -> None:
        os.symlink('two_nodes.flat', self.folder / 'soft')
        for out in ('soft', './two_nodes.flat', 'folder/../two_nodes.flat', self.folder / 'two_nodes.flat'):
            held = self.held('two_nodes.flat')
            self.answered('accepted', 0, 'solve-flat', 'two_nodes.flat', out, touched='two_nodes.flat')
            self.assertEqual(self.held('two_nodes.flat'), SETTING)
            (self.folder / 'two_nodes.flat').write_bytes(held)
        os.link(self.folder / 'two_nodes.flat', self.folder / 'folder' / 'hard')
        self.answered('accepted', 0, 'solve-flat', 'folder/hard', 'two_nodes.flat', touched='two_nodes.flat')
        self.assertEqual((self.folder / 'folder' / 'hard').read_bytes(), SETTING)

    def test_a_refusal_spares_it(self) -> None:
        self.write('bad', 'gasflat 1\n')
        os.symlink('bad', self.folder / 'soft')
        for out in ('bad', 'soft'):
            self.answered('bad problem line 2', 65, 'solve-flat', 'bad', out)
            self.answered('usage word 4', 64, 'solve-flat', 'two_nodes.flat', out, '--tol', '-1')
        self.answered('bad net not outline at 0', 65, 'flat', 'bad', *FOUR[1:], 'bad')
        for place in range(4):
            for name, line, status in (('nowhere', 'read fault', 66), ('two_nodes.flat', None, 65)):
                words = Command('flat', FOUR, True, '').words(FOUR[place - 1], **{f'at_{place}': name})
                line = line or ('bad net not outline at 0', 'bad scn not outline at 0', 'bad cdf not outline at 0', 'bad res row 1')[place]
                self.answered(line, status, *words)

    def test_one_file_for_several(self) -> None:
        self.answered('bad setting not json', 65, 'replay-flat', 'two_nodes.flat', 'two_nodes.flat')
        self.answered('not refutation not tree line 1', 3, 'check-flat', 'two_nodes.flat', 'two_nodes.flat')
        self.answered('bad scn wrong root', 65, 'flat', *['network.net'] * 4, 'network.net')


def nested_halvings(nodes: int, depth: int) -> tuple[str, int]:
    """A tree in sixteenths in which each lower half is halved again, down to this depth, and each box is left open; and
    the number of its first open line."""
    lines, upper, node, low, high = ['gastree 2'], [], 0, 0, 16 * 10 ** 16
    for _ in range(depth):
        if high - low < 2:
            node, high = node + 1, 16 * 10 ** 16
        middle = (low + high) // 2
        lines += [f'halve s{node}', f'half s{node} hi {middle}']
        upper += ['open', f'half s{node} lo {middle}']
        high = middle
    assert node < nodes
    return '\n'.join([*lines, 'open', *reversed(upper), 'end', '']), len(lines) + 1


class NestedTest(HostileTest):
    def test_a_hundred_thousand_halvings(self) -> None:
        nodes = 2000
        problem = ''.join(f'node n{place} 0 100000000 0 0\n' for place in range(nodes))
        text, line = nested_halvings(nodes, 100_000)
        (self.folder / 'wide.flat').write_text(f'gasflat 1\n{problem}end\n')
        (self.folder / 'deep.tree').write_text(text)
        self.answered(f'not refutation open line {line}', 3, 'check-flat', 'wide.flat', 'deep.tree')


class NameTest(HostileTest):
    def test_not_utf_8(self) -> None:
        for odd in (b'\xff', b'out\x80', b'\xc0\xaf', b'\xed\xa0\x80'):
            shutil.copy(EXAMPLES / 'two_nodes.flat', os.fsencode(self.folder) + b'/' + odd)
            for words in ((b'solve-flat', odd, b'out'), (b'solve-flat', b'two_nodes.flat', odd), (odd,), (b'solve-flat', b'two_nodes.flat', b'out', odd)):
                self.answered('', 72, *words)

    def test_odd_but_good(self) -> None:
        for number, name in enumerate((' ', 'a b', 'a\nb', '*', '~', '$HOME', '"\'', 'Ü', '\U0001f525', '%s%n', '\x01', 'none', 'x' * 255)):
            shutil.copy(EXAMPLES / 'two_nodes.flat', self.folder / name)
            out = f'out {number}\n'
            self.answered('accepted', 0, 'solve-flat', name, out, touched=out)
            self.assertEqual(self.held(out), SETTING)

    def test_no_names(self) -> None:
        (self.folder / '-x').write_bytes(self.held('two_nodes.flat'))
        for word in ('', '-x', '-', '--'):
            self.answered('usage word 1', 64, 'solve-flat', word, 'out')
            self.answered('usage word 2', 64, 'solve-flat', 'two_nodes.flat', word)
        self.answered('accepted', 0, 'solve-flat', './-x', 'out', touched='out')


class PipeTest(HostileTest):
    """Pipes with names. The system lets a call wait until the other end is there, so another end is always opened."""

    def setUp(self) -> None:
        super().setUp()
        os.mkfifo(self.folder / 'pipe')
        (self.folder / 'pipe').chmod(0o666)

    def beside(self, work: Callable[[], object]) -> threading.Thread:
        """Starts the other end; a program that never comes to the pipe doesn't hold up the tests."""
        thread = threading.Thread(target=work, daemon=True)
        thread.start()
        self.addCleanup(thread.join, 10)
        return thread

    def feed(self, *pieces: bytes) -> None:
        def write() -> None:
            with open(self.folder / 'pipe', 'wb', buffering=0) as pipe:
                for piece in pieces:
                    pipe.write(piece)
                    time.sleep(0.02)
        self.beside(write)

    def test_an_input_in_pieces(self) -> None:
        text = self.held('two_nodes.flat')
        self.feed(*(text[place:place + 7] for place in range(0, len(text), 7)))
        self.answered('accepted', 0, 'solve-flat', 'pipe', 'out', touched='out')
        self.assertEqual(self.held('out'), SETTING)

    def test_an_input_that_ends_early(self) -> None:
        self.feed(self.held('two_nodes.flat')[:30])
        self.answered('bad problem line 3', 65, 'solve-flat', 'pipe', 'out')
        self.feed()
        self.answered('bad problem line 1', 65, 'solve-flat', 'pipe', 'out')

    def test_out_is_read(self) -> None:
        got: list[bytes] = []
        thread = self.beside(lambda: got.append(self.held('pipe')))
        self.answered('accepted', 0, 'solve-flat', 'two_nodes.flat', 'pipe')
        thread.join(10)
        self.assertEqual(got, [SETTING])

    def test_out_is_left_by_its_reader(self) -> None:
        def leave() -> None:
            with open(self.folder / 'pipe', 'rb') as pipe:
                pipe.read(1)
        self.beside(leave)
        self.answered('', 74, 'make', 2000, 'pipe')

    def test_waits_for_the_other_end(self) -> None:
        started = subprocess.Popen([self.program, 'solve-flat', 'pipe', 'out'], cwd=self.folder, stdout=subprocess.PIPE)
        self.addCleanup(started.stdout.close)
        self.addCleanup(started.kill)
        with self.assertRaises(subprocess.TimeoutExpired):
            started.wait(0.3)
        self.feed(self.held('two_nodes.flat'))
        self.assertEqual((started.stdout.read(), started.wait(30)), (b'accepted\n', 0))


if __name__ == '__main__':
    unittest.main()

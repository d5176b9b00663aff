"""Tests of tools/package and of the completion for bash. A script stands in place of hk_replay, so that they run where it isn't built;
docs/TOOLS.md has the same with the program."""
import os
import pathlib
import re
import shutil
import subprocess
import tempfile
import unittest

from support import EXAMPLES, PROGRAM, TOP, needs, run


def out(*words, **more):
    """What a command writes."""
    return subprocess.run(words, capture_output=True, text=True, check=True, **more).stdout


@needs('dpkg-deb')
class Package(unittest.TestCase):
    @classmethod
    def setUpClass(cls):
        cls.scratch = tempfile.TemporaryDirectory(prefix='package-test-')
        cls.addClassCleanup(cls.scratch.cleanup)
        cls.folder = pathlib.Path(cls.scratch.name)
        (cls.folder / 'built').mkdir()
        program = cls.folder / 'built/hk_replay'
        program.write_text('#!/bin/sh\necho stand-in "$@"\n')
        program.chmod(0o755)
        status, path, said = run('package', '-o', cls.folder / 'made', '--programs', cls.folder / 'built')
        assert status == 0, said
        cls.package = path.decode().strip()
        out('dpkg-deb', '-x', cls.package, cls.folder / 'root')
        cls.bin = cls.folder / 'root/usr/bin'

    def test_what_is_packed(self):
        listed = {line.split()[5].removeprefix('.'): line.split()[:2] for line in out('dpkg-deb', '-c', self.package).splitlines()}
        for path, mode in (
            ('/usr/bin/hk_replay', '-rwxr-xr-x'), ('/usr/bin/hk_make_record', 'lrwxrwxrwx'), ('/usr/bin/hk_split_record', 'lrwxrwxrwx'),
            ('/usr/bin/hk_tailoring_from_csv', 'lrwxrwxrwx'), ('/usr/share/man/man1/hk_replay.1.gz', '-rw-r--r--'),
            ('/usr/share/man/man1/hk_make_record.1.gz', '-rw-r--r--'), ('/usr/share/vanillaeve/tools/hkrec.py', '-rw-r--r--'),
            ('/usr/share/bash-completion/completions/hk_replay', '-rw-r--r--'),
            ('/usr/share/doc/vanillaeve/examples/asked_again.pcap', '-rw-r--r--'), ('/usr/share/doc/vanillaeve/copyright', '-rw-r--r--'),
        ):
            self.assertEqual(listed.get(path), [mode, 'root/root'], path)

    def test_the_program_is_packed_as_it_is(self):
        self.assertEqual((self.bin / 'hk_replay').read_bytes(), (self.folder / 'built/hk_replay').read_bytes())

    def test_it_is_always_the_same(self):
        status, path, said = run('package', '-o', self.folder / 'again', '--programs', self.folder / 'built')
        self.assertEqual(status, 0, said)
        self.assertEqual(pathlib.Path(path.decode().strip()).read_bytes(), pathlib.Path(self.package).read_bytes())

    def test_control(self):
        self.assertEqual(out('dpkg-deb', '-f', self.package, 'Package', 'Architecture', 'Depends').splitlines(),
                         ['Package: vanillaeve', 'Architecture: all', 'Depends: python3 (>= 3.11)'])

    def test_installed_tools_run(self):
        lines = ''.join(f'got {"0001c0000000"}{number:02x}\n' for number in range(3)).encode()
        done = subprocess.run([self.bin / 'hk_make_record', 'lines', '-', '--unknown'], input=lines, capture_output=True, check=False)
        wanted = b'HKREC1U\n' + b''.join(b'G\0\0\0\7\0\1\xc0\0\0\0' + bytes([number]) for number in range(3))
        self.assertEqual((done.returncode, done.stdout, done.stderr), (0, wanted, b''))
        # the program beside it is asked: the stand-in finds no fault
        done = subprocess.run([self.bin / 'hk_tailoring_from_csv', EXAMPLES / 'parameters.csv', EXAMPLES / 'structures.csv', 'apid=100'],
                              capture_output=True, text=True, check=False, env={**os.environ, 'PATH': f'{self.bin}:{os.environ["PATH"]}'})
        self.assertEqual((done.returncode, done.stderr), (0, ''))
        done = subprocess.run([self.bin / 'hk_make_record', 'lines'], capture_output=True, text=True, check=False)
        self.assertEqual((done.returncode, done.stderr.split()[:2]), (2, ['usage:', 'hk_make_record']))

    def test_no_program(self):
        (self.folder / 'none').mkdir()
        self.assertEqual(run('package', '-o', self.folder / 'nothing', '--programs', self.folder / 'none')[:2], (1, b''))
        self.assertFalse((self.folder / 'nothing').exists())
        self.assertEqual(run('package', '--what')[0], 2)

    @needs('lintian')
    def test_lintian(self):
        """With the program where it is built, else with what stands in its place."""
        package = self.package
        if PROGRAM.is_file():
            (self.folder / 'real').mkdir()
            shutil.copy(PROGRAM, self.folder / 'real/hk_replay')
            status, path, said = run('package', '-o', self.folder / 'real', '--programs', self.folder / 'real')
            self.assertEqual(status, 0, said)
            package = path.decode().strip()
        done = subprocess.run(['lintian', '--allow-root', '--fail-on', 'error,warning', package], capture_output=True, text=True, check=False)
        self.assertEqual((done.returncode, re.findall('(?m)^[EW]: .*', done.stdout)), (0, []))

    @needs('man')
    def test_manual_pages(self):
        for page in (self.folder / 'root/usr/share/man/man1').iterdir():
            done = subprocess.run(['man', '--warnings', '-E', 'UTF-8', '-l', page], capture_output=True, text=True, check=False,
                                  env={**os.environ, 'MANWIDTH': '160', 'LC_ALL': 'C.UTF-8'})
            self.assertEqual((done.returncode, done.stderr), (0, ''), page)
            self.assertIn(page.name.partition('.')[0], done.stdout)


@unittest.skipUnless(shutil.which('bash'), "bash isn't there")
class Completion(unittest.TestCase):
    def completed(self, *words, program='hk_replay'):
        """What is offered for the last word, in the folder examples."""
        script = 'source "$1"; shift; COMP_WORDS=("$@"); COMP_CWORD=$(($# - 1)); "_$1"; printf "%s\\n" "${COMPREPLY[@]}"'
        path = TOP / 'tools/completion' / program
        return sorted(out('bash', '-c', script, 'bash', path, program, *words, cwd=EXAMPLES).split())

    def test_words(self):
        self.assertEqual(self.completed(''), sorted('replay follow show encode check trim generate'.split()))
        self.assertEqual(self.completed('t'), ['trim'])
        self.assertEqual(self.completed('replay', 'b'), ['builtin', 'builtin.toml'])
        self.assertEqual(self.completed('check', 'cube'), ['cubesat.toml'])
        self.assertEqual(self.completed('follow', 'builtin', 'cube'), ['cubesat.rec'])
        self.assertEqual(self.completed('trim', 'cut'), ['cut.rec', 'cut_trimmed.rec'])
        self.assertEqual(self.completed('encode', 'builtin', 'req'), ['request.txt', 'request_shown.txt', 'requests.txt', 'requests_shown.txt'])
        # no file with the usual ending: all files
        self.assertEqual(self.completed('trim', 'builtin'), ['builtin.toml', 'builtin_check.txt'])
        self.assertEqual(self.completed('generate', '1', ''), [])

    def test_words_of_the_board(self):
        self.assertEqual(self.completed('', program='hk_board'), ['run'])
        self.assertEqual(self.completed('run', 'b', program='hk_board'), ['builtin', 'builtin.toml'])
        self.assertEqual(self.completed('run', 'builtin', 'l', program='hk_board'), ['lost_confirmation.script'])
        self.assertEqual(self.completed('run', 'builtin', 'a.script', '', program='hk_board'), [])


if __name__ == '__main__':
    unittest.main()

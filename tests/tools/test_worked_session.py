"""Runs the commands of docs/TOOLS.md, and compares what they print with what the page shows.

A command is a line that begins with `$ ` in a block of lines indented by four blanks; what it prints follows up to the next command or the
end of the block. All commands of a page run in its order in one shell, in one folder, from which tools, examples, docs and tests are seen,
with hk_replay on the PATH. A command that needs what isn't there is skipped, and so are those that use a file, a variable or a status that
it would have made."""
import os
import pathlib
import re
import shutil
import subprocess
import tempfile
import unittest

from support import PROGRAM, TOP

PAGE = 'TOOLS.md'
# commands that needn't be on a machine
OPTIONAL = ('tshark', 'lintian', 'dpkg-deb', 'sqlite3', 'chromium', 'cmp')
CALLED = {'make_record pcap': 'tshark', 'tools/package': 'dpkg-deb'}
MARK = 'the next command of the page'


def commands(text):
    """The commands of a page and what each prints."""
    found = []
    for line in text.splitlines():
        if line.startswith('    $ '):
            found.append((line[6:], []))
        elif line.startswith('    ') and found and found[-1][1] is not None:
            found[-1][1].append(line[4:])
        elif found:
            # the block is over: lines of one without a command belong to none
            found.append(('', None))
    return [(command, printed) for command, printed in found if command]


def missing(command):
    """What a command needs that isn't there, or None."""
    words = re.split(r'[\s|;()]+', command)
    wanted = [name for name in OPTIONAL if name in words] + [name for call, name in CALLED.items() if call in command]
    for name in wanted:
        if not shutil.which(name):
            return f"{name} isn't there"
    program = TOP / 'crates/hk_replay/out/hk_replay' if 'tools/package' in command else PROGRAM
    if ('hk_replay' in words or 'tailoring_from_csv' in command or 'tools/package' in command) and not program.is_file():
        return "hk_replay isn't built"
    return None


def makes(command):
    """The files, folders and variables that a command may make: where output goes, and names with an ending and no folder."""
    found = re.findall(r'(?:>|-o|-x \S+) ?([\w./]+)', command) + re.findall(r'^(\w+)=', command)
    found += [word for word in command.split() if re.fullmatch(r'\w+\.[a-z]+', word)]
    return {name for name in found if not name.startswith('/dev/')}


def uses(command, names):
    """Whether a command uses one of these. A file of examples/ is there whatever was skipped."""
    rest = re.sub(r'\bexamples/\S+', '', command)
    return any(re.search(rf'(^|[\s$/]){re.escape(name)}($|[\s/])', rest) for name in names)


class Page(unittest.TestCase):
    def plan(self, text):
        """The commands that are run, with what they print, and those that are skipped, with the reason."""
        run, skipped, lacking = [], [], set()
        last_skipped, folder = None, None
        for command, printed in commands(text):
            why = missing(command)
            if why is None and (uses(command, lacking) or 'echo $?' in command and last_skipped):
                why = last_skipped or 'it uses what a skipped command makes'
            if why is None and folder and ('cd ' in command or '$OLDPWD' in command):
                why = folder
            if why:
                lacking |= makes(command)
                skipped.append((command, why))
                folder = why if command.startswith('cd ') else folder
            else:
                run.append((command, printed))
            last_skipped = why
        return run, skipped

    def run_page(self, run):
        """What each of the commands prints, in one shell."""
        script = 'export LC_ALL=C\n'
        for command, _ in run:
            script += f'last=$?; echo "{MARK}"; (exit $last)\n{command}\n'
        with tempfile.TemporaryDirectory(prefix='session-') as name:
            folder = pathlib.Path(name)
            for part in ('tools', 'examples', 'docs', 'tests'):
                (folder / part).symlink_to(TOP / part)
            (folder / 'bin').mkdir()
            if PROGRAM.is_file():
                (folder / 'bin/hk_replay').symlink_to(PROGRAM.resolve())
            done = subprocess.run(['bash', '-c', script], cwd=folder, stdin=subprocess.DEVNULL, stdout=subprocess.PIPE,
                                  stderr=subprocess.STDOUT, check=False, env={**os.environ, 'PATH': f'{folder}/bin:{os.environ["PATH"]}'})
        return done.stdout.decode(errors='replace').split(MARK + '\n')[1:]

    def test_page(self):
        text = (TOP / 'docs' / PAGE).read_text()
        run, skipped = self.plan(text)
        self.assertGreater(len(run) + len(skipped), 0)
        printed = self.run_page(run)
        self.assertEqual(len(printed), len(run))
        for (command, wanted), found in zip(run, printed):
            with self.subTest(command=command):
                self.assertEqual(found.splitlines(), wanted)
        for command, why in skipped:
            with self.subTest(command=command):
                if why == "hk_replay isn't built" and os.environ.get('HK_REPLAY_NEEDED') == '1':
                    self.fail(why)
                self.skipTest(f'a command of docs/{PAGE}: {why}')

    def test_commands_are_found(self):
        text = 'Words\n\n    $ a | b\n    one\n\n      two\n    $ c\n\n    no command\n\nwords\n\n    $ d\n    three\n'
        self.assertEqual(commands(text), [('a | b', ['one']), ('c', []), ('d', ['three'])])
        self.assertEqual(makes('x -o a.rec > b.txt 2> /dev/null'), {'a.rec', 'b.txt'})
        self.assertEqual(makes('x s.db examples/a.rec'), {'s.db'})
        self.assertTrue(uses('cmp - a.rec', {'a.rec'}))
        self.assertFalse(uses('cmp - aa.rec', {'a.rec'}))
        self.assertFalse(uses('cmp - examples/a.rec', {'a.rec'}))


if __name__ == '__main__':
    unittest.main()

"""Tests of tools/tailoring_from_csv."""
import os
import tempfile
import tomllib
import unittest

from support import EXAMPLES, PROGRAM, needs_program, run

KEYS = ('apid=100', 'ground=1', 'slot=4096')
PARAMETERS = (EXAMPLES / 'parameters.csv').read_text()
STRUCTURES = (EXAMPLES / 'structures.csv').read_text()
# a change of parameters.csv or structures.csv, the fault that docs/FORMATS.md gives it, and its place
FAULTS = [
    ('p', ',s,unsigned,4', ',s,unsigned,9', 'out of range parameter[5].octets 9', 'parameters.csv:7: column 5 (octets)'),
    ('p', '\n10,', '\n7,', 'repeated parameter 7', 'parameters.csv:9: column 1 (id)'),
    ('p', '0 1 2 7', '0 1 2 700', 'out of range parameter[4].values[3] 700', 'parameters.csv:6: column 6 (values)'),
    ('p', 'enumerated', 'enum', 'wrong kind parameter[4].kind', 'parameters.csv:6: column 4 (kind)'),
    ('p', 'K,unsigned,1', 'K,unsigned,', 'missing key parameter[2].octets', 'parameters.csv:4: column 5 (octets)'),
    ('p', 'boolean,1,', 'boolean,1,1', 'unknown key parameter[3].values', 'parameters.csv:5: column 6 (values)'),
    ('p', ',,100', ',,70000', 'out of range parameter[6].initial 70000', 'parameters.csv:8: column 7 (initial)'),
    ('p', '\n1,', '\n"1\n",', None, None),
    ('s', '4: 3', '3: 3', 'repetition 3 of interval 8', 'structures.csv:3: column 6 (arrays)'),
    ('s', '4: 3', '4: 1', 'doubled parameter 1', 'structures.csv:3: column 6 (arrays)'),
    ('s', '4: 3', '4: 9', 'unknown parameter 9', 'structures.csv:3: column 6 (arrays)'),
    ('s', ',4 5,', ',4 4,', 'doubled parameter 4', 'structures.csv:5: column 5 (simple)'),
    ('s', ',4 5,', ',4 99,', 'unknown parameter 99', 'structures.csv:5: column 5 (simple)'),
    ('s', '4: 3', '0: 3', 'out of range structure[1].array[0].repetition 0', 'structures.csv:3: column 6 (arrays)'),
    ('s', '4: 3', '4:', 'out of range structure[1].array[0].parameters 0', 'structures.csv:3: column 6 (arrays)'),
    ('s', 'diagnostic,1', 'housekeeping,1', 'repeated structure hk 1', 'structures.csv:5: column 2 (id)'),
    ('s', ',,6,', ',,,', 'out of range structure[2].simple 0', 'structures.csv:4: column 5 (simple)'),
    # 255 times 4 octets and 1, and 2 octets of parameter 1
    ('s', '2,8,true,1,4: 3', '2,255,true,1,255: 6 3', 'too wide 1277', 'structures.csv:3: column 6 (arrays)'),
    ('s', ',8,', ',0,', 'out of range structure[1].interval 0', 'structures.csv:3: column 3 (interval)'),
]


class FromTables(unittest.TestCase):
    def make(self, parameters, structures, *words):
        """Runs the tool on two tables."""
        with tempfile.TemporaryDirectory() as folder:
            for name, text in (('parameters.csv', parameters), ('structures.csv', structures)):
                with open(os.path.join(folder, name), 'wb') as file:
                    file.write(text if isinstance(text, bytes) else text.encode())
            return run('tailoring_from_csv', 'parameters.csv', 'structures.csv', *words, cwd=folder)

    def faulty(self, which, old, new):
        """The two tables, one of them changed in one place."""
        self.assertEqual((PARAMETERS if which == 'p' else STRUCTURES).count(old), 1, old)
        return [text.replace(old, new) if name == which else text for name, text in (('p', PARAMETERS), ('s', STRUCTURES))]

    def test_the_built_in_tailoring(self):
        status, text, said = self.make(PARAMETERS, STRUCTURES, *KEYS, '--unchecked')
        self.assertEqual((status, said), (0, "tailoring_from_csv: the tailoring isn't checked: hk_replay isn't asked\n"))
        made = tomllib.loads(text.decode())
        wanted = tomllib.loads((EXAMPLES / 'builtin.toml').read_text())
        left_out = {'coarse', 'fine', 'tc_checksum', 'tm_checksum', 'structure_octets', 'parameter_octets', 'interval_octets', 'count_octets',
                    'repetition_octets', 'step_octets', 'mean_fraction', 'max_interval', 'max_payload'}
        self.assertEqual(made, {key: value for key, value in wanted.items() if key not in left_out})
        self.assertIn(b'[[parameter]]    # battery voltage, mV\nid = 1\n', text)

    def test_version_2(self):
        parameters = '\ufeffid;bits;kind;initial\r\n1;3;unsigned;\r\n2;5;signed;-16\r\n3;1;boolean;\r\n4;3;unsigned;\r\n'
        structures = 'interval;arrays;simple;id;enabled;kind\r\n2;"2: 4; 1:1";2 3;1;TRUE;housekeeping\r\n;;;;;\r\n'
        status, text, _ = self.make(parameters, structures, *KEYS, 'tm_checksum=true', '--unchecked')
        self.assertEqual(status, 0)
        self.assertEqual(tomllib.loads(text.decode()), {
            'version': 2, 'apid': 100, 'ground': 1, 'slot': 4096, 'tm_checksum': True,
            'parameter': [
                {'id': 1, 'bits': 3, 'kind': 'unsigned'}, {'id': 2, 'bits': 5, 'kind': 'signed', 'initial': -16},
                {'id': 3, 'bits': 1, 'kind': 'boolean'}, {'id': 4, 'bits': 3, 'kind': 'unsigned'}],
            'structure': [{'kind': 'housekeeping', 'id': 1, 'interval': 2, 'enabled': True, 'simple': [2, 3], 'array': [
                {'repetition': 2, 'parameters': [4]}, {'repetition': 1, 'parameters': [1]}]}]})

    def test_what_a_cell_may_not_hold(self):
        for which, old, new, told in (
            ('p', '\n7,', '\nx,', "parameters.csv:8: column 1 (id): 'x' is no whole number"),
            ('p', '\n7,', '\n1.5,', "parameters.csv:8: column 1 (id): '1.5' is no whole number"),
            ('p', '\n7,', '\n99999999999999999999,', 'parameters.csv:8: column 1 (id): 99999999999999999999 needs more than 64 bits'),
            ('p', '0 1 2 7', '0 1 2;7', "parameters.csv:6: column 6 (values): '2;7' is no whole number"),
            ('p', 'id,name,unit', 'id,name,units', "parameters.csv:1: column 3 (units): no column is named 'units'"),
            ('p', 'id,name,unit', 'id,name,id', 'parameters.csv:1: column 3 (id): a second column id'),
            ('p', ',,100', ',,100,1', 'parameters.csv:8: column 8: the row has more cells than the heading'),
            ('p', 'boolean', 'Boolean', "parameters.csv:5: column 4 (kind): 'Boolean' is no word of small letters"),
            ('p', 'wheel 1 speed', '"wheel\n1" speed', 'parameters.csv:10: '),
            ('p', 'wheel 1 speed,rpm,unsigned', '"wheel\n1 speed",rpm,"un\nsigned"', "parameters.csv:9: column 4 (kind): 'un\\nsigned' is no"),
            ('s', '4: 3', '4 3', "structures.csv:3: column 6 (arrays): '4 3' is no array"),
            ('s', '4: 3', '4: 3;', "structures.csv:3: column 6 (arrays): '' is no array"),
            ('s', '1,4,true', '1,4,yes', "structures.csv:2: column 4 (enabled): 'yes' is neither true nor false"),
        ):
            status, text, said = self.make(*self.faulty(which, old, new), *KEYS, '--unchecked')
            self.assertEqual((status, text), (3, b''), new)
            self.assertTrue(said.startswith(f'tailoring_from_csv: {told}'), said)

    def test_the_place_of_what_the_program_says(self):
        """The fault comes from a script in place of hk_replay, so that this runs without the program."""
        with tempfile.TemporaryDirectory() as folder:
            for which, old, new, fault, place in FAULTS:
                with open(os.path.join(folder, 'check'), 'w') as script:
                    script.write(f'#!/bin/sh\n[ "$1" = check ] || exit 2\n' + (f'echo "tailoring: {fault}" >&2; exit 3\n' if fault else ''))
                os.chmod(script.name, 0o755)
                made = self.make(*self.faulty(which, old, new), *KEYS, '--program', script.name)
                self.assertEqual(made[::2], (3, f'tailoring_from_csv: {place}: {fault}\n') if fault else (0, ''), (new, made))
                self.assertEqual(made[1] == b'', bool(fault))

    @needs_program
    def test_the_program_says_so(self):
        for which, old, new, fault, place in FAULTS:
            made = self.make(*self.faulty(which, old, new), *KEYS, '--program', PROGRAM)
            self.assertEqual(made[::2], (3, f'tailoring_from_csv: {place}: {fault}\n') if fault else (0, ''), (new, made))

    @needs_program
    def test_keys(self):
        for words, told in (
            (('apid=100', 'ground=1'), 'missing key slot: give slot=VALUE'),
            (('apid=2047', 'ground=1', 'slot=4096'), 'apid=2047: out of range apid 2047'),
            (KEYS + ('tm_checksum=1',), 'tm_checksum=1: wrong kind tm_checksum'),
            (KEYS + ('slots=1',), 'slots=1: unknown key slots'),
        ):
            self.assertEqual(self.make(PARAMETERS, STRUCTURES, *words, '--program', PROGRAM), (3, b'', f'tailoring_from_csv: {told}\n'))
        self.assertEqual(self.make('id\n', STRUCTURES, *KEYS, '--program', PROGRAM)[2], 'tailoring_from_csv: parameters.csv: missing key parameter\n')

    def test_statuses(self):
        self.assertEqual(run('tailoring_from_csv', '/no/such', EXAMPLES / 'structures.csv', *KEYS)[0], 5)
        self.assertEqual(run('tailoring_from_csv', EXAMPLES / 'parameters.csv', '-', *KEYS, given=b'\xff')[0], 3)
        for words in ((), ('a',), ('a', 'b', 'c'), ('a', 'b', 'apid=x'), ('a', 'b', 'apid=1', 'apid=1'), ('a', 'b', '--what'), ('-', '-')):
            self.assertEqual(run('tailoring_from_csv', *words)[:2], (2, b''), words)
        made = self.make(PARAMETERS, STRUCTURES, *KEYS, '--program', '/no/such')
        self.assertEqual(made[:2], (7, b''))


if __name__ == '__main__':
    unittest.main()

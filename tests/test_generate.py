"""Tests of tools/generate, in a copy of the files that it reads and writes."""
import pathlib
import re
import shutil
import subprocess
import tempfile
import unittest

ROOT = pathlib.Path(__file__).resolve().parent.parent
MARKED = ['include/pumpfennel.h', 'bindings/rust/src/refusal.rs', 'README.md']
CARGO = ['bindings/rust/Cargo.toml', 'bindings/rust/Cargo.lock']
CRATES = ['crates/answers/src/refusal.rt', 'crates/answers/specs/Inner/Refusals.antt',
          'crates/answers/proofs/Numbers.antt', 'crates/listing/src/meanings.rt']
VERSIONED = ['crates/pumpfennel/src/version.rt', 'bindings/rust/src/ffi.rs']
EVERY = MARKED + CARGO + CRATES + VERSIONED


class Generate(unittest.TestCase):
    def setUp(self):
        holder = tempfile.TemporaryDirectory()
        self.addCleanup(holder.cleanup)
        self.folder = pathlib.Path(holder.name)
        for name in ['tools/generate', 'refusals.txt', 'VERSION', *MARKED, *CARGO, *VERSIONED]:
            (self.folder / name).parent.mkdir(parents=True, exist_ok=True)
            shutil.copy(ROOT / name, self.folder / name)
        self.assertEqual(self.run_tool()[0], 0)

    def run_tool(self, *args):
        """The exit status, the files named and what was said of an error."""
        ran = subprocess.run([self.folder / 'tools' / 'generate', *args], capture_output=True, text=True)
        return ran.returncode, re.findall(r'^generate: (\S+) (?:is not|written)', ran.stdout, re.M), ran.stderr

    def read(self, name):
        return (self.folder / name).read_text()

    def texts(self):
        return {name: self.read(name) for name in EVERY}

    def write(self, name, text):
        (self.folder / name).write_text(text)

    def check_differ(self, names):
        """These files differ, which --check says without writing; written, they differ no more."""
        before = self.texts()
        status, named, _ = self.run_tool('--check')
        self.assertEqual((status, sorted(named), self.texts()), (1, sorted(names), before))
        status, named, _ = self.run_tool()
        self.assertEqual((status, sorted(named)), (0, sorted(names)))
        self.assertEqual(sorted(name for name in EVERY if self.read(name) != before[name]), sorted(names))
        self.assertEqual(self.run_tool('--check'), (0, [], ''))

    def check_refused(self, said):
        before = self.texts()
        for args in [(), ('--check',)]:
            status, named, errors = self.run_tool(*args)
            self.assertEqual((status, named), (1, []))
            self.assertIn(said, errors)
        self.assertEqual(self.texts(), before)

    def test_written_files_differ_no_more(self):
        self.assertEqual(self.run_tool('--check'), (0, [], ''))
        self.assertEqual(self.run_tool(), (0, [], ''))

    def test_a_new_refusal_comes_to_every_language(self):
        self.write('refusals.txt', self.read('refusals.txt') + '26 BadUnions: a type is above 3\n')
        self.check_differ(MARKED + CRATES)
        for name, lines in {
                'include/pumpfennel.h': [
                    '    /* A type is above 3. */\n    PUMPFENNEL_BAD_UNIONS = 26\n};',
                    '    case PUMPFENNEL_BAD_UNIONS:\n        return "a type is above 3";\n'],
                'bindings/rust/src/refusal.rs': [
                    '    /// A type is above 3.\n    BadUnions = 26,\n}',
                    'ALL: [Refusal; 26] = [\n', '        Refusal::BadUnions,\n    ];',
                    '            Refusal::BadUnions => "a type is above 3",\n'],
                'README.md': ['| 26 | `BadUnions` | a type is above 3 |\n\n'],
                'crates/answers/src/refusal.rt': ['    BadUnions = 26,\n}'],
                'crates/answers/specs/Inner/Refusals.antt': [
                    ', BadUnions}\n', '-- a type is above 3\nrefusal_number BadUnions = 26\n'],
                'crates/answers/proofs/Numbers.antt': [', BadUnions}\n', 'number_some BadUnions = lit< tt\n'],
                'crates/listing/src/meanings.rt': [
                    '        Refusal::BadUnions => "a type is above 3",\n    }']}.items():
            for line in lines:
                self.assertIn(line, self.read(name), name)

    def test_what_is_no_longer_returned_stays_for_callers_alone(self):
        """Nothing of it is in the crates; the others keep their numbers."""
        self.write('refusals.txt', self.read('refusals.txt').replace('7 GrammarRuleOnNoChain:', '7 GrammarRuleOnNoChain, no longer returned:'))
        self.check_differ(MARKED + CRATES)
        for name, lines in {
                'include/pumpfennel.h': [
                    '    /* No longer returned: a rule is on no chain. */\n    PUMPFENNEL_GRAMMAR_RULE_ON_NO_CHAIN = 7,\n',
                    '    case PUMPFENNEL_GRAMMAR_RULE_ON_NO_CHAIN:\n        return "a rule is on no chain";\n'],
                'bindings/rust/src/refusal.rs': [
                    '    /// No longer returned: a rule is on no chain.\n    GrammarRuleOnNoChain = 7,\n', 'ALL: [Refusal; 25] = [\n'],
                'README.md': ['| 7 | `GrammarRuleOnNoChain` | no longer returned: a rule is on no chain |\n'],
                'crates/answers/src/refusal.rt': ['    GrammarRuleMetTwice = 6,\n    GrammarEqualRules = 8,\n']}.items():
            for line in lines:
                self.assertIn(line, self.read(name), name)
        for name in CRATES:
            self.assertNotIn('OnNoChain', self.read(name), name)
            self.assertNotIn('SentenceAmbiguous', self.read(name), name)

    def test_a_new_version_comes_to_every_language(self):
        self.write('VERSION', '1.20.3\n')
        self.check_differ(['include/pumpfennel.h', *CARGO, *VERSIONED])
        self.assertIn('VERSION "1.20.3"\n#define PUMPFENNEL_VERSION_NUMBER 12003\n', self.read('include/pumpfennel.h'))
        self.assertIn('#define PUMPFENNEL_INTERFACE pumpfennel_interface_1_20\n', self.read('include/pumpfennel.h'))
        for name in CARGO:
            self.assertIn('name = "pumpfennel"\nversion = "1.20.3"\n', self.read(name))
        self.assertEqual(self.read(VERSIONED[0]).count('result ≡ 12003 '), 2)
        self.assertEqual(self.read(VERSIONED[0]).count('    12003\n'), 2)
        self.assertIn('fn pumpfennel_interface_1_20() -> u64\n', self.read(VERSIONED[0]))
        self.assertIn('    #[link_name = "pumpfennel_interface_1_20"]\n', self.read(VERSIONED[1]))

    def test_a_patch_keeps_the_interface(self):
        major, minor, patch = self.read('VERSION').split('.')
        self.write('VERSION', f'{major}.{minor}.{int(patch) + 1}\n')
        self.check_differ(['include/pumpfennel.h', *CARGO, VERSIONED[0]])
        self.assertIn(f'#define PUMPFENNEL_INTERFACE pumpfennel_interface_{major}_{minor}\n', self.read('include/pumpfennel.h'))

    def test_what_is_altered_by_hand_is_noticed(self):
        for name, old, new in [('include/pumpfennel.h', 'BAD_LINK = 5', 'BAD_LINK = 6'),
                               ('include/pumpfennel.h', 'VERSION_NUMBER ', 'VERSION_NUMBER 1'),
                               ('bindings/rust/src/refusal.rs', 'the chains', 'chains'),
                               ('README.md', '| 7 |', '| 8 |'),
                               ('bindings/rust/Cargo.lock', '"pumpfennel"\nversion = "', '"pumpfennel"\nversion = "1'),
                               ('crates/answers/src/refusal.rt', ' = 9,', ' = 26,'),
                               ('crates/listing/src/meanings.rt', '\n}\n', '\n}\n\n')]:
            text = self.read(name)
            self.assertIn(old, text)
            self.write(name, text.replace(old, new, 1))
            self.check_differ([name])
            self.assertEqual(self.read(name), text)

    def test_the_rest_of_a_file_is_not_touched(self):
        for name in MARKED:
            self.write(name, 'before\n' + self.read(name) + 'after \t\n\n')
        self.assertEqual(self.run_tool('--check'), (0, [], ''))
        before = {name: self.read(name) for name in MARKED}
        self.write('refusals.txt', '1 Other: for another reason\n')
        self.check_differ(MARKED + CRATES)
        parts = re.compile(r'(?s)(.*refusals: from refusals\.txt, by tools/generate)(.*)(end of refusals.*)')
        for name, old in before.items():
            old, new = parts.fullmatch(old), parts.fullmatch(self.read(name))
            self.assertEqual((new[1], new[3]), (old[1], old[3]))
            self.assertLess(len(new[2]), len(old[2]) // 2)

    def test_wrong_lists(self):
        good = self.read('refusals.txt')
        for line in ['26', '26 Name', '26 Name words', '26 name: words', '26 Two Names: words', '26 Name: ',
                     '26 Name, no longer: words', '26 Name: words.', '26 Name: a "word"', '26 Name: a | b', '26 Name: a */ b', '26 Name: a \\ b', '26 Name: naïve']:
            with self.subTest(line):
                self.write('refusals.txt', good + line + '\n')
                self.check_refused('is not a number, a name, a colon and plain words')
        for line, said in [('25 Name: words', 'the number 25, not one from 26 to 255'), ('23 Name: words', 'the number 23, not one from 26 to 255'),
                           ('256 Name: words', 'the number 256, not one from 26 to 255'), ('26 BadLength: words', 'says what 9 says'),
                           ('26 Name: a rule is on no chain', 'says what 7 says')]:
            with self.subTest(line):
                self.write('refusals.txt', good + line + '\n')
                self.check_refused(said)

    def test_wrong_versions(self):
        for version in ['', '1.2\n', '1.2.3', '1.2.3\n\n', '1.2.100\n', '1.02.3\n', 'v1.2.3\n']:
            with self.subTest(version):
                self.write('VERSION', version)
                self.check_refused('VERSION is not one line')

    def test_wrong_marks(self):
        for name in MARKED:
            good = self.read(name)
            for text, said in [(good.replace('end of refusals', ''), '0 times'), (good + good, '2 times'), ('', '0 times')]:
                self.write(name, text)
                self.check_refused(f'{name}: the marks for refusals stand there {said}')
            self.write(name, good)
        self.write(CARGO[0], '[package]\nversion = "0.3.0"\n')
        self.check_refused(f'{CARGO[0]}: the crate\'s name')

    def test_wrong_commands(self):
        for args in [('--chek',), ('--check', '--check'), ('refusals.txt',)]:
            status, named, errors = self.run_tool(*args)
            self.assertEqual((status, named), (2, []))
            self.assertIn('generate --check', errors)


if __name__ == '__main__':
    unittest.main()

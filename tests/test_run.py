"""Tests of ./run and of the listing program's reading and writing: what is listed is what the brute-force program gives, what
cannot be read or written is told, and the listing program is built only where it must be. It is built beforehand, or here."""
import contextlib
import os
import pathlib
import shutil
import signal
import subprocess
import tempfile
import unittest

import oracle
from generate import history
from listings import framed, meaning_of
from oracle import F
from test_interface import compiled, compiler

ROOT = pathlib.Path(__file__).resolve().parent.parent
PROGRAM = ROOT / 'target' / 'bin' / 'listing'
MATRIX, DIARY = (ROOT / 'examples' / name for name in ('matrix.txt', 'diary.txt'))
HEARD = history([bytes([0, 10, 20, 30, 45]), bytes([3, 11, 24, 31, 45]), bytes([0, 10, 20, 30, 42]), bytes([0, 10, 20, 30, 40])])
SAMPLE = framed(5, oracle.matrix(), HEARD)
P7 = framed(2, F, history([bytes([0, 1])]))
PATIENCE = 60  # seconds for a command that builds nothing
UNREAD = 'listing: standard input cannot be read\n'
UNWRITTEN = 'listing: standard output cannot be written\n'


def run(*args, at=ROOT / 'run', cwd=ROOT, given=b'', path=None):
    command, environment = [at, *map(str, args)], {**os.environ, 'PATH': str(path or os.environ['PATH'])}
    ran = subprocess.run(command, cwd=cwd, input=given, env=environment, capture_output=True, timeout=PATIENCE)
    return ran.returncode, ran.stdout, ran.stderr.decode()


def shell(command, given=b''):
    """The same of a line for bash, which can close a descriptor or set a limit."""
    return run('-c', command, at='bash', given=given)


def into_closed_pipe(*command, given=b'', killed=True):
    """How a command ends, and its words, where nobody reads its standard output. The signal for that kills it, or is ignored."""
    read, write = os.pipe()
    os.close(read)
    with open(write, 'wb') as output:
        ran = subprocess.run(command, input=given, stdout=output, stderr=subprocess.PIPE, restore_signals=killed,
                             timeout=PATIENCE)
    return ran.returncode, ran.stderr.decode()


@contextlib.contextmanager
def files(**contents):
    """A folder with these files."""
    with tempfile.TemporaryDirectory() as name:
        for file, content in contents.items():
            pathlib.Path(name, file).write_bytes(content)
        yield pathlib.Path(name)


def setUpModule():
    subprocess.run([ROOT / 'run'], capture_output=True)


class Program(unittest.TestCase):
    """The listing program alone. It has no exit status, so it says what went wrong and writes nothing more."""

    def test_an_output_that_cannot_be_written(self):
        for given in (P7, SAMPLE, b''):
            for output in ('>/dev/full', '>&-'):
                self.assertEqual(shell(f'{PROGRAM} {output}', given=given), (0, b'', UNWRITTEN))
            for killed in (True, False):
                self.assertEqual(into_closed_pipe(PROGRAM, given=given, killed=killed), (0, UNWRITTEN))

    def test_an_output_that_becomes_full(self):
        with files() as folder:
            said = shell(f"ulimit -f 4; trap '' XFSZ; {PROGRAM} >{folder}/listing", given=SAMPLE)
            self.assertEqual(said, (0, b'', UNWRITTEN))
            self.assertEqual((folder / 'listing').read_bytes(), oracle.listing(SAMPLE)[:4096])

    def test_an_input_that_cannot_be_read(self):
        for unread in (f'<{ROOT}', '<&-', '0>/dev/null'):
            self.assertEqual(shell(f'{PROGRAM} {unread}'), (0, b'', UNREAD))

    def test_an_empty_input_is_another_matter(self):
        self.assertEqual(shell(f'{PROGRAM} </dev/null'), (0, b'refused 1\n', meaning_of(b'refused 1\n').decode()))


class Failing(unittest.TestCase):
    """The listing program with a read and a write that move few bytes, and of which one call fails and the later ones don't."""

    SOURCE = """
        #define _GNU_SOURCE
        #include <errno.h>
        #include <stdlib.h>
        #include <sys/syscall.h>
        #include <unistd.h>
        static int fails(const char *which, int *calls) {
            const char *call = getenv(which);
            errno = EIO;
            return ++*calls == (call ? atoi(call) : 0);
        }
        ssize_t read(int file, void *bytes, size_t size) {
            static int calls;
            if (file == 0 && fails("FAILING_READ", &calls)) return -1;
            return syscall(SYS_read, file, bytes, size < 100 ? size : 100);
        }
        ssize_t write(int file, const void *bytes, size_t size) {
            static int calls;
            if (file == 1 && fails("FAILING_WRITE", &calls)) return -1;
            return syscall(SYS_write, file, bytes, size < 1000 ? size : 1000);
        }
    """

    @classmethod
    def setUpClass(cls):
        holder = tempfile.TemporaryDirectory()
        cls.addClassCleanup(holder.cleanup)
        source, cls.library = pathlib.Path(holder.name, 'calls.c'), pathlib.Path(holder.name, 'calls.so')
        source.write_text(cls.SOURCE)
        compiled(*compiler('CC', 'cc'), '-shared', '-fPIC', source, '-o', cls.library)

    def listed(self, given, settings=''):
        return shell(f'{settings} LD_PRELOAD={self.library} {PROGRAM}', given=given)

    def test_few_bytes_at_a_time(self):
        self.assertEqual(self.listed(SAMPLE), (0, oracle.listing(SAMPLE), ''))

    def test_a_read_that_fails(self):
        """The input has four parts of a hundred bytes or fewer, and its end is a fifth call."""
        for call in range(1, 6):
            self.assertEqual(self.listed(SAMPLE, f'FAILING_READ={call}'), (0, b'', UNREAD))
        self.assertEqual(self.listed(SAMPLE, 'FAILING_READ=6'), (0, oracle.listing(SAMPLE), ''))

    def test_nothing_is_written_after_a_write_that_fails(self):
        whole, before = oracle.listing(SAMPLE), -1
        for call in range(1, 1 + len(whole) // 1000):
            status, output, errors = self.listed(SAMPLE, f'FAILING_WRITE={call}')
            self.assertEqual((status, errors, output), (0, UNWRITTEN, whole[:len(output)]))
            self.assertIn(len(output), range(before + 1, before + 1002))
            before = len(output)
        self.assertEqual(self.listed(b'', 'FAILING_WRITE=1'), (0, b'', UNWRITTEN))


class Listing(unittest.TestCase):
    def test_without_argument(self):
        first = b''.join(oracle.listing(SAMPLE).splitlines(True)[:12])
        said = 'run: the first 12 of 1001 lines; ./run --all prints them all\n'
        self.assertEqual(run(), (0, first, said))

    def test_all(self):
        self.assertEqual(run('--all'), (0, oracle.listing(SAMPLE), ''))

    def test_a_file_named_from_another_folder(self):
        with files(input=P7) as folder:
            (folder / 'input').rename(folder / 'an input')
            self.assertEqual(run('an input', cwd=folder), (0, oracle.listing(P7), ''))

    def test_standard_input(self):
        self.assertEqual(run('-', given=P7), (0, oracle.listing(P7), ''))

    def test_every_number_of_lines(self):
        """Left from 0 to 4,094: the lines are all those that the first one says."""
        for length in (1, 2, 9, 10, 12):
            given = framed(length, F, history([bytes(length), bytes([1]) * length]))
            self.assertEqual(run('-', given=given), (0, oracle.listing(given), ''))

    def test_a_refusal(self):
        for given, refusal in [(P7[:-1], b'refused 11\n'), (b'', b'refused 1\n')]:
            self.assertEqual(run('-', given=given), (1, refusal, meaning_of(refusal).decode()))

    def test_through_links(self):
        with files(input=P7) as folder:
            (folder / 'first').symlink_to(ROOT / 'run')
            (folder / 'below').mkdir()
            (folder / 'below' / 'second').symlink_to('../first')
            for link in ('first', 'below/second'):
                self.assertEqual(run('input', at=folder / link, cwd=folder), (0, oracle.listing(P7), ''))


class Own(unittest.TestCase):
    """A bank, a diary and a length."""

    def check(self, given, *args, cwd=ROOT):
        self.assertEqual(run(*args, cwd=cwd), (0, oracle.listing(given), ''))

    def test_text_and_bytes(self):
        with files(bank=oracle.matrix(), diary=HEARD) as folder:
            for bank in (MATRIX, folder / 'bank'):
                for diary in (DIARY, folder / 'diary'):
                    self.check(SAMPLE, '--bank', bank, '--diary', diary, '--length', 5)

    def test_any_order_and_names_from_another_folder(self):
        with files(bank=F, diary=b'0 1\n') as folder:
            self.check(P7, '--length', 2, '--diary', 'diary', '--bank', 'bank', cwd=folder)
            self.check(P7, '--diary', './diary', '--length', 2, '--bank', 'bank', cwd=folder)

    def test_without_a_diary_nothing_was_heard(self):
        self.check(framed(5, oracle.matrix(), history([])), '--bank', MATRIX, '--length', 5)

    def test_a_refusal(self):
        """An empty file is no text without a sentence: one that was lost is not to count as nothing heard."""
        with files(bank=b'', diary=b'', cut=HEARD[:-1]) as folder:
            for refusal, args in [(b'refused 1\n', ('--bank', folder / 'bank', '--length', 5)),
                                  (b'refused 9\n', ('--bank', MATRIX, '--length', 0)),
                                  (b'refused 9\n', ('--bank', MATRIX, '--length', 255)),
                                  (b'refused 11\n', ('--bank', MATRIX, '--length', 5, '--diary', folder / 'diary')),
                                  (b'refused 11\n', ('--bank', MATRIX, '--length', 5, '--diary', folder / 'cut'))]:
                self.assertEqual(run(*args), (1, refusal, meaning_of(refusal).decode()))

    def test_what_the_tool_says_of_a_file(self):
        with files(bank=b'words 2\nstart zero\n', diary=b'1\n1 two\n') as folder:
            for said, args in [
                ("bank: line 2: start is not a number: 'zero'", ('--bank', 'bank', '--length', 5)),
                ("diary: line 2: a word is not a number: 'two'", ('--bank', MATRIX, '--length', 5, '--diary', 'diary')),
                ('none: No such file or directory', ('--bank', 'none', '--length', 5)),
                ('.: Is a directory', ('--bank', MATRIX, '--length', 5, '--diary', '.')),
                ('the length is above 255: 256', ('--bank', MATRIX, '--length', 256)),
                ("the length is not a number: '-1'", ('--bank', MATRIX, '--length', -1)),
            ]:
                self.assertEqual(run(*args, cwd=folder), (2, b'', f'pumpfennel-text: {said}\n'))

    def test_wrong_commands(self):
        both = 'both --bank FILE and --length N are needed'
        for said, args in [(both, ('--bank', MATRIX)), (both, ('--length', 5)), (both, ('--diary', DIARY)),
                           ('--length needs a value', ('--bank', MATRIX, '--length')),
                           ('--diary needs a value', ('--bank', MATRIX, '--diary', '', '--length', 5)),
                           ('--diary is given twice', ('--diary', DIARY, '--bank', MATRIX, '--diary', MATRIX)),
                           ('there is no option --all beside --bank, --diary and --length', ('--bank', MATRIX, '--all')),
                           ('there is no option file beside --bank, --diary and --length', ('--length', 5, 'file'))]:
            self.assertEqual(run(*args), (2, b'', f'run: {said}\n'))


class Readme(unittest.TestCase):
    def shown(self):
        """Each command of the README, with the lines that stand under it."""
        shown = []
        for line in (ROOT / 'README.md').read_text().splitlines():
            if line.startswith('    $ '):
                shown.append((line[6:], []))
            elif shown and line.startswith('    '):
                shown[-1][1].append(line[4:])
        return shown

    def test_commands_print_what_stands_under_them(self):
        """Dots stand for further lines, and nothing for any. A file that is shown is there."""
        held = 0
        with files() as folder:
            for command, lines in self.shown():
                words = command.split()
                if words[0] == 'cat':
                    (folder / words[1]).write_text('\n'.join(lines) + '\n')
                elif words[0] == './run':
                    at = folder if '--diary' in words and (folder / words[words.index('--diary') + 1]).exists() else ROOT
                    status, output, _ = run(*words[1:], cwd=at)
                    self.assertEqual(status, 0, command)
                    found = output.decode().splitlines()
                    if lines[-1:] == ['...']:
                        found, lines = found[:len(lines) - 1], lines[:-1]
                    if lines:
                        self.assertEqual(found, lines, command)
                    held += 1
        self.assertEqual(held, 3)


class Streams(unittest.TestCase):
    """./run where something cannot be read or written."""

    def test_an_output_that_cannot_be_written(self):
        unwritten = 'run: standard output could not be written\n'
        for command in ('./run', './run --all', './run -', './run --help'):
            self.assertEqual(shell(f'{command} >/dev/full', given=P7), (3, b'', unwritten))
            self.assertEqual(shell(f'{command} >&-', given=P7), (3, b'', 'run: standard output is closed\n'))
            for killed in (True, False):
                self.assertEqual(into_closed_pipe(ROOT / 'run', *command.split()[1:], given=P7, killed=killed), (3, unwritten))

    def test_an_input_that_cannot_be_read(self):
        with files() as folder:
            for name, why in [(folder, 'Is a directory'), (folder / 'none', 'No such file or directory')]:
                self.assertEqual(run(name), (2, b'', f'run: {name} could not be read: {why}\n'))
        for unread, why in [(f'<{ROOT}', 'Is a directory'), ('<&-', 'Bad file descriptor')]:
            self.assertEqual(shell(f'./run - {unread}'), (2, b'', f'run: - could not be read: {why}\n'))

    def test_streams_that_are_not_needed(self):
        for streams in ('<&-', f'<{ROOT}', '2>&-', '<&- 2>&-'):
            self.assertEqual(shell(f'./run --all {streams}'), (0, oracle.listing(SAMPLE), ''))

    def test_a_listing_that_is_cut(self):
        whole = oracle.listing(SAMPLE)[:4096].count(b'\n')
        said = f'{UNWRITTEN}run: the listing is incomplete: {whole} of 1001 lines\n'
        self.assertEqual(shell("ulimit -f 4; trap '' XFSZ; ./run --all"), (3, b'', said))

    def test_no_temporary_folder(self):
        status, output, errors = shell('TMPDIR=/dev/null/none ./run')
        self.assertEqual((status, output), (3, b''))
        self.assertTrue(errors.endswith('run: there is no temporary folder\n'), errors)


class Usage(unittest.TestCase):
    def test_help(self):
        for option in ('--help', '-h'):
            status, output, errors = run(option)
            self.assertEqual((status, errors), (0, ''))
            for word in (b'usage:', b'--all', b'--bank FILE', b'--diary FILE', b'--length N', b'FILE', b'Exit status'):
                self.assertIn(word, output)

    def test_wrong_commands(self):
        for args in [('--everything',), ('-a',), ('--all', 'file'), ('file', 'file'), ('',)]:
            self.assertEqual(run(*args)[:2], (2, b''), args)


class Building(unittest.TestCase):
    """With a tree of its own and an rt that only notes its call and leaves a program; that one's first figure is its input's size."""

    BEGIN = 'run: proving and building the listing program; from nothing this takes some minutes\n'

    def setUp(self):
        holder = tempfile.TemporaryDirectory()
        self.addCleanup(holder.cleanup)
        self.root = pathlib.Path(holder.name, 'a tree').resolve()
        self.bin = pathlib.Path(holder.name, 'bin')
        self.source = self.root / 'crates' / 'listing' / 'src' / 'main.rt'
        self.program = self.root / 'target' / 'bin' / 'listing'
        self.log = self.root / 'target' / 'run.log'
        for folder in (self.source.parent, self.program.parent, self.bin):
            folder.mkdir(parents=True)
        for folder in ('tools', 'examples'):
            shutil.copytree(ROOT / folder, self.root / folder, ignore=shutil.ignore_patterns('__pycache__'))
        shutil.copy(ROOT / 'run', self.root)
        for file in (self.source, self.root / 'crates.txt'):
            file.write_text('')
        self.rt('[ -e out/listing ] || printf "#!/bin/sh\\necho \\$(wc -c) 0 0 0\\n" >out/listing\n'
                'chmod +x out/listing')

    def rt(self, body):
        """Its notes are those of the prover, then come a crate that is proved and one that was before."""
        notes = 'echo fn lists::sum: proved >&2\necho a note >&2\necho "crate lists: modules loaded=0 checked=51" >&2\n' \
                'echo "library sets: modules loaded=0 checked=0" >&2\necho a refusal'
        self.tool('rt', f'#!/bin/sh\necho "${{PWD##*/}} $@" >>../../calls\nmkdir -p out\n{notes}\n{body}\n')

    def tool(self, name, content):
        (self.bin / name).write_text(content)
        (self.bin / name).chmod(0o755)

    def run_here(self, path=None):
        return run('--all', at=self.root / 'run', path=path or f'{self.bin}:{os.environ["PATH"]}')

    def calls(self):
        return (self.root / 'calls').read_text().splitlines() if (self.root / 'calls').exists() else []

    def check_built(self, times):
        status, output, errors = self.run_here()
        self.assertEqual((status, output), (0, b'%d 0 0 0\n' % (3 + 229 + 4 + 20 * 40)))
        self.assertEqual(self.calls(), ['listing run'] * times)
        return errors

    def test_built_once(self):
        self.assertEqual(self.check_built(1), self.BEGIN + 'run: lists is checked\n')
        self.assertEqual(self.check_built(1), '')

    def test_a_line_comes_as_its_crate_is_proved(self):
        self.rt('sleep 5; touch ../../ended')
        environment = {**os.environ, 'PATH': f'{self.bin}:{os.environ["PATH"]}'}
        with subprocess.Popen([self.root / 'run'], stderr=subprocess.PIPE, env=environment, text=True,
                              start_new_session=True) as running:
            said = [running.stderr.readline() for _ in range(2)]
            meanwhile = not (self.root / 'ended').exists()
            os.killpg(running.pid, signal.SIGTERM)
        self.assertEqual((said, meanwhile), ([self.BEGIN, 'run: lists is checked\n'], True))

    def test_the_notes_go_to_the_log(self):
        self.check_built(1)
        self.assertEqual(self.log.read_text().splitlines()[:3], ['fn lists::sum: proved', 'a note', 'crate lists: modules loaded=0 checked=51'])

    def test_built_again_after_a_change(self):
        self.check_built(1)
        for times, file in enumerate([self.source, self.root / 'crates.txt', self.source.parent / 'new.rt'], 2):
            file.write_text('changed')
            self.check_built(times)
            self.assertEqual(self.check_built(times), '')
        (self.source.parent / 'new.rt').unlink()
        self.check_built(5)

    def test_a_change_meanwhile_is_seen(self):
        self.check_built(1)
        self.source.write_text('changed')
        self.rt('sleep 0.05; echo changed >src/main.rt; touch out/listing')
        self.check_built(2)
        self.check_built(3)

    def test_a_failure_names_the_log(self):
        for body, said in [
            ('rm -f out/listing\necho "rt: the library grammar did not build, so nothing above it was checked" >&2; exit 1',
             'run: the library grammar did not build, so nothing above it was checked\n'
             f'run: the listing program could not be proved and built; {self.log} says why\n'),
            ('true', f'run: rt run left no listing program; {self.log} has what it said\n'),
        ]:
            self.rt(body)
            self.assertEqual(self.run_here(), (3, b'', f'{self.BEGIN}run: lists is checked\n{said}'))
            self.assertIn('a note\n', self.log.read_text())

    def test_without_rt(self):
        for name in ('bash', 'env', 'find', 'mktemp', 'python3', 'readlink', 'rm'):
            (self.bin / name).symlink_to(shutil.which(name))
        (self.bin / 'rt').unlink()
        said = 'run: the listing program is not built, and there is no rt on the path\n'
        self.assertEqual(self.run_here(self.bin), (3, b'', said))

    def check_told(self, program, said):
        """A program that prints something else than a whole listing."""
        self.program.write_text(f'#!/bin/sh\n{program}\n')
        self.assertEqual(self.run_here(), (3, b'', f'run: {said}\n'))

    def test_a_program_that_fails(self):
        self.check_built(1)
        self.check_told('echo 5\nexit 4', 'the listing program failed')

    def test_a_listing_that_is_not_whole(self):
        self.check_built(1)
        for program, said in [
            ('true', 'the listing has no line'),
            ("printf '5 100000 4 99996'", 'the listing has no line'),
            ('echo 5 100000 4', 'the listing begins with neither figures nor a refusal'),
            ('echo refused', 'the listing begins with neither figures nor a refusal'),
            ('echo 5 100000 4 99996; seq 567; printf 5', 'the listing is incomplete: 568 of 1001 lines'),
            ('echo 5 100000 4 99996; seq 999; printf 1000', 'the listing is incomplete: 1000 of 1001 lines'),
            ('echo 5 100000 4 18446744073709551615; seq 999', 'the listing is incomplete: 1000 of 1001 lines'),
            ('echo 5 1000 1 999; seq 998', 'the listing is incomplete: 999 of 1000 lines'),
            ('echo 5 1000 0 1000; seq 999', 'the listing is incomplete: 1000 of 1001 lines'),
            ('echo 5 9 0 8; seq 7', 'the listing is incomplete: 8 of 9 lines'),
            ('echo 5 9 0 8; seq 9', 'the listing has more than its 9 lines'),
            ('echo 5 9 0 8; seq 8; printf 9', 'the listing has more than its 9 lines'),
            ('echo 5 0 0 0; echo 0 0 0', 'the listing has more than its 1 lines'),
            ('echo refused 3; echo 0 0 0', 'the listing has more than its 1 lines'),
        ]:
            with self.subTest(program):
                self.check_told(program, said)


if __name__ == '__main__':
    unittest.main()

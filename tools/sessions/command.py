#!/usr/bin/env python3
"""Tests of ./deletion as a command: how it ends, what it writes where, what it takes as words, and how it has the program built.

    python3 tools/sessions/command.py

The program has to be there, as `rt ci` or `rt run` leaves it. What goes beyond the program is tested in a copy, whose toolchain only seems to be
one: see Copy."""
import contextlib
import os
import re
import resource
import shutil
import signal
import stat
import subprocess
import sys
import tempfile
import threading
import unittest

HERE = os.path.dirname(os.path.realpath(__file__))
ROOT = os.path.dirname(os.path.dirname(HERE))
COMMAND = os.path.join(ROOT, 'deletion')
# By its first line a script of sh; bash reads it as well, and does some things differently.
SHELLS = ((), ('bash',))
MOST_SECONDS = 20

REFUSED_ARGUMENT = 'f0140000000000000000\n'
NO_ARGUMENT = "', isn't nil, true, false, an integer or a number that is read here (--help)\n"
NO_IMAGE = 'deletion: this is no image; tools/lua2image/lua2image makes one of a rule in Lua\n'
LOST = 'deletion: the answer could not be written whole\n'
FINISHED = 'f0000000000100000000\n'


def image(name):
    with open(os.path.join(HERE, 'cases', name + '.image'), 'rb') as file:
        return file.read()


def returning(parameters):
    """The image of a rule that returns its inputs."""
    return b'a0%02x%02x\nc00c0000%02x00\ne001\n' % (max(parameters, 1), parameters, parameters)


class Ended:
    def __init__(self, status, out, err):
        self.status, self.out, self.err = status, (out or b'').decode(), err.decode(errors='replace')

    def __repr__(self):
        return 'status %d, output %r, message %r' % (self.status, self.out[:200], self.err[:600])


def environment(changes):
    """This one with changes; None takes a variable out."""
    both = {**os.environ, **changes}
    return {name: value for name, value in both.items() if value is not None}


@contextlib.contextmanager
def started(words, env, **how):
    """A command that is under way. It has a session of its own, so that nothing of it is left however a test ends."""
    how = {'stdin': subprocess.PIPE, 'stdout': subprocess.PIPE, 'stderr': subprocess.PIPE, **how}
    with subprocess.Popen(words, env=environment(env or {}), start_new_session=True, **how) as process:
        guard = threading.Timer(MOST_SECONDS, end, [process])
        guard.start()
        try:
            yield process
        finally:
            guard.cancel()
            end(process)


def end(process):
    try:
        os.killpg(process.pid, signal.SIGKILL)
    except ProcessLookupError:
        pass


def run(*words, shell=(), command=COMMAND, stdin=b'', env=None, **how):
    """Runs the command to its end. stdin: what is written to it, or where it comes from."""
    fed = stdin if isinstance(stdin, bytes) else None
    if fed is None:
        how['stdin'] = stdin
    with started([*shell, command, *words], env, **how) as process:
        out, err = process.communicate(fed)
    return Ended(process.returncode, out, err)


class Case(unittest.TestCase):
    def setUp(self):
        self.folder = self.new_folder()

    def new_folder(self):
        made = tempfile.TemporaryDirectory()
        self.addCleanup(made.cleanup)
        return made.name

    def path(self, *names):
        return os.path.join(self.folder, *names)

    def write(self, name, data, mode=0o644):
        path = self.path(name)
        os.makedirs(os.path.dirname(path), exist_ok=True)
        with open(path, 'wb') as file:
            file.write(data if isinstance(data, bytes) else data.encode())
        os.chmod(path, mode)
        return path

    def ended(self, status, out, err, ended):
        """err is a part of what is said, or '' for nothing."""
        self.assertEqual((ended.status, ended.out), (status, out), ended)
        if err:
            self.assertIn(err, ended.err)
        else:
            self.assertEqual('', ended.err)


class Statuses(Case):
    def test_an_answer_has_its_status(self):
        for name, status in (('values', 0), ('1-empty', 3), ('2-kind', 3), ('4-nothing', 3), ('10-count', 3), ('15-none', 3), ('16-first', 3),
                             ('30-add', 1), ('46-zero', 1), ('50-call', 1), ('54-cells', 1), ('70-endless', 4)):
            for shell in SHELLS:
                with self.subTest(name=name, shell=shell):
                    done = run(shell=shell, stdin=image(name))
                    self.assertEqual((status, ''), (done.status, done.err), done)
                    self.assertTrue(done.out.startswith('f0'))

    def test_status_2_is_of_the_command_and_writes_nothing(self):
        file = self.write('image', returning(1))
        for words in (['--no-such'], ['-x'], ['--budget'], ['--budget', 'x', file], ['--Help'], ['--version=1'], ['-1', file], ['missing', '1'],
                      [self.folder, '1'], ['', '1'], [file, *'123456789'], [file, '1', '2']):
            for shell in SHELLS:
                with self.subTest(words=words, shell=shell):
                    done = run(*words, shell=shell)
                    self.ended(2, '', 'deletion: ', done)
                    self.assertNotIn('usage: ./deletion [FILE]\n', done.err)

    def test_5_where_the_answer_of_an_error_is_lost(self):
        with open(os.devnull) as nowhere:
            self.ended(5, '', LOST, run(stdin=image('30-add'), stdout=nowhere))


class Output(Case):
    """A lost answer is told, whatever it would have been: 33,936 bytes here."""

    def lost(self, words=(), **how):
        for shell in SHELLS:
            with self.subTest(words=words, shell=shell):
                self.ended(5, '', LOST, run(*words, shell=shell, stdin=image('values-most'), **how))

    @unittest.skipUnless(os.access('/dev/full', os.W_OK), 'there is no /dev/full')
    def test_a_full_disk(self):
        for words in ([], ['--help'], ['--version']):
            with open('/dev/full', 'wb') as full:
                self.lost(words, stdout=full)

    def test_a_closed_output(self):
        for words in ([], ['--help'], ['--version']):
            self.lost(words, preexec_fn=lambda: os.close(1))

    def test_an_output_that_is_for_reading(self):
        with open(os.devnull) as nowhere:
            self.lost(stdout=nowhere)

    def test_a_closed_pipe(self):
        """With SIGPIPE as it is by itself, and ignored."""
        reading, writing = os.pipe()
        os.close(reading)
        for restored in (True, False):
            for words in ([], ['--help'], ['--version']):
                self.lost(words, stdout=writing, restore_signals=restored)
        os.close(writing)

    def test_a_limit_of_the_file_s_size(self):
        """It cuts the answer in the middle: at a block's end, or anywhere."""
        whole = run(stdin=image('values-most')).out
        for restored in (True, False):
            for size in (0, 512, 8192, 20000):
                with open(self.path('out'), 'wb') as out:
                    self.lost(stdout=out, restore_signals=restored, preexec_fn=lambda: resource.setrlimit(resource.RLIMIT_FSIZE, (size, size)))
                with open(self.path('out')) as out:
                    self.assertEqual(whole[:size], out.read())

    def test_no_limit(self):
        with open(self.path('out'), 'wb') as out:
            self.ended(0, '', '', run('--budget', '1000000', stdin=image('values-most'), stdout=out))
        self.assertEqual(20 + 1 + 254 * (4 + 128 + 1), os.path.getsize(self.path('out')))


class Budgets(Case):
    """W13 takes 9 instructions."""

    def budget(self, *words):
        done = run(*words, stdin=image('w13'))
        return done.status, int(done.out[2:4], 16), int(done.out[4:12], 16), done.err

    def test_taken(self):
        for words, status, number, count in (
                (['--budget', '0'], 4, 70, 0), (['--budget', '1'], 4, 70, 1), (['--budget', '8'], 4, 70, 8), (['--budget', '9'], 0, 0, 9),
                (['--budget', '10', '-'], 0, 0, 9), (['--budget', '4294967295'], 0, 0, 9), (['--budget', '007'], 4, 70, 7),
                (['--budget', '000'], 4, 70, 0), (['--budget', '00000000000000000009'], 0, 0, 9), (['--budget=5'], 4, 70, 5),
                (['--budget', '5', '--budget', '9'], 0, 0, 9), (['--budget=9', '--budget', '2', '--', '-'], 4, 70, 2)):
            with self.subTest(words=words):
                self.assertEqual((status, number, count, ''), self.budget(*words))

    def test_refused(self):
        for word in ('4294967296', '18446744073709551616', '9' * 1000, '', '-1', '+1', '1.5', '1e3', '0x10', ' 1', '1 ', 'x', '1\n', '\u0661'):
            for words in (['--budget', word], ['--budget=' + word], ['--budget', word, '--budget', '5']):
                with self.subTest(words=words):
                    self.ended(2, '', 'deletion: --budget ', run(*words, stdin=image('w13')))

    def test_with_arguments(self):
        self.ended(0, FINISHED + 'b0020000000000000005\n', '', run('--budget', '1', '-', '5', stdin=returning(1)))
        self.ended(4, 'f0460000000000000000\n', '', run('--budget', '0', '-', '5', stdin=returning(1)))


# What a word stands for by document 02, 1/12. The bits of integers and numbers are those that Python has for the same figures.
READ = {
    'nil': '00', 'true': '0101', 'false': '0100', '0': '020000000000000000', '20407': '020000000000004fb7', '-3': '02fffffffffffffffd',
    '+007': '020000000000000007', '-0': '020000000000000000', '0x1f': '02000000000000001f', '-0XfF': '02ffffffffffffff01',
    '0xffffffffffffffff': '02ffffffffffffffff', '0x10000000000000001': '020000000000000001', '-0x8000000000000000': '028000000000000000',
    '9223372036854775807': '027fffffffffffffff', '-9223372036854775808': '028000000000000000', '0' * 30 + '12': '02000000000000000c',
    '10000000000000000000': '0343e158e460913d00', '2.5': '034004000000000000', '-.5': '03bfe0000000000000', '5.': '034014000000000000',
    '1e3': '03408f400000000000', '2.5E-1': '033fd0000000000000', '1e+0': '033ff0000000000000', '1e22': '034480f0cf064dd592',
    '0.1e23': '034480f0cf064dd592', '10e21': '034480f0cf064dd592', '1e-22': '033b5e392010175ee6', '0e999': '030000000000000000',
    '-0.0': '038000000000000000', '0.5000': '033fe0000000000000', '999999999999999.0': '03430c6bf52633fff8', ' 12 ': '02000000000000000c',
    '\t\n\v\f\r 1.5\r\n': '033ff8000000000000', ' ' * 4095 + '1': '020000000000000001',
}
UNREAD = ('True', 'NIL', 'true ', ' nil', '', ' ', '.', '-', '+', 'e5', '.e1', '1e', '1e+', '0x', '0xg', '0x1p4', '0x.8', '1,5', '1 2', '- 1', '--1',
          '1_000', 'inf', 'nan', '-inf', '1e23', '1e-23', '9223372036854775808', '-9223372036854775809', '1234567890123456.0', '"7"', '7years',
          '1' * 5000, ' ' * 4999 + '1', '\u0661', b'\xff', b'1\xff', b'\xa01', '--help', '--budget', '*', '$(echo 1)', '\\x31')


class Arguments(Case):
    def test_read(self):
        words = list(READ)
        for at in range(0, len(words), 8):
            some = words[at:at + 8]
            lines = ''.join('b0%s\n' % READ[word] for word in some)
            with self.subTest(words=some):
                self.ended(0, FINISHED + lines, '', run('-', *some, stdin=returning(len(some))))

    def test_refused(self):
        for word in UNREAD:
            with self.subTest(word=word):
                done = run('-', '1', word, 'x', stdin=returning(3))
                self.ended(2, REFUSED_ARGUMENT, NO_ARGUMENT, done)
                self.assertTrue(done.err.startswith("deletion: argument 2, '"))

    def test_as_many_as_there_are_parameters(self):
        for parameters in (0, 1, 7, 8):
            with self.subTest(parameters=parameters):
                done = run('-', *['1'] * (parameters + 1), stdin=returning(parameters))
                self.ended(2, '', 'deletion: ', done)
                if parameters < 8:
                    self.assertIn('arguments given: %d, parameters of the rule: %d;' % (parameters + 1, parameters), done.err)
        self.ended(0, FINISHED + 'b000\n' * 9, '', run('-', *['nil'] * 8, stdin=returning(9)))

    def test_fewer_are_nil(self):
        self.ended(0, FINISHED + 'b0020000000000000001\nb00101\nb000\n', '', run('-', '1', 'true', stdin=returning(3)))

    def test_a_bad_image(self):
        """It is refused as it is without arguments, whatever they are; what its first line seems to say counts for nothing where it isn't one."""
        for bad in (b'', b'\n', b'a001\n', b'A00101\n', b'a00100x\n', b'xa00101\n', b'e000\n', b'a0\xff\xff00\n', b'\0' * 70000):
            for word in ('1', 'x'):
                with self.subTest(image=bad[:10], word=word):
                    alone = run(stdin=bad)
                    self.assertEqual(3, alone.status)
                    self.ended(3, alone.out, alone.err, run('-', word, stdin=bad))

    def test_a_source_in_the_place_of_an_image(self):
        self.ended(3, 'f0010000000000000000\n', NO_IMAGE, run(os.path.join(ROOT, 'examples', 'one-record.lua')))
        self.ended(3, 'f0040000000000000000\n', '', run(stdin=b''))


class Images(Case):
    """An image comes by a file or a pipe; with an argument its first line is looked at before the program has it."""
    ANSWER = FINISHED + 'b0020000000000000007\n'

    def test_named(self):
        for name in ('rule.image', 'a rule', ' ', '$HOME', '*', 'a\nb', '&1', '(', '!', '=', ']', '\u00e9', '-n', '--budget', '--'):
            file = self.write(name, returning(1))
            for words in (['--', name, '7'], [file, '7']):
                for shell in SHELLS:
                    with self.subTest(words=words, shell=shell):
                        self.ended(0, self.ANSWER, '', run(*words, shell=shell, cwd=self.folder))

    def test_standard_input(self):
        self.write('file', returning(1))
        for shell in SHELLS:
            with self.subTest(shell=shell):
                self.ended(0, FINISHED + 'b000\n', '', run('--budget', '9', shell=shell, stdin=returning(1)))
                for words in (['-', '7'], ['--', '-', '7'], ['/dev/stdin', '7']):
                    self.ended(0, self.ANSWER, '', run(*words, shell=shell, stdin=returning(1)))
                    with open(self.path('file')) as file:
                        self.ended(0, self.ANSWER, '', run(*words, shell=shell, stdin=file))

    def test_standard_input_beside_a_file_of_its_name(self):
        self.write('-', returning(0))
        self.ended(0, self.ANSWER, '', run('-', '7', stdin=returning(1), cwd=self.folder))

    def test_a_pipe_with_a_name(self):
        fifo = self.path('fifo')
        os.mkfifo(fifo)
        for words, answer in (([fifo], 'b000\n'), ([fifo, '7'], 'b0020000000000000007\n'), (['--budget', '5', fifo], 'b000\n')):
            with self.subTest(words=words):
                writer = threading.Thread(target=self.write, args=('fifo', returning(1)))
                writer.start()
                self.ended(0, FINISHED + answer, '', run(*words))
                writer.join()
        self.ended(0, self.ANSWER, '', run('-c', '"$0" <(cat) 7', COMMAND, command='bash', stdin=returning(1)))

    def test_in_pieces(self):
        pieces = '{ printf a0; sleep 0.1; printf "0101\\nc00c0000"; sleep 0.1; printf "0100\\ne001\\n"; } | "$0" - 7'
        self.ended(0, self.ANSWER, '', run('-c', pieces, COMMAND, command='sh'))

    def test_no_file(self):
        unreadable = self.write('unreadable', returning(1), 0)
        missing = self.path('missing')
        script = shutil.copy(COMMAND, self.path('script'))
        os.chmod(self.folder, 0o755)
        for shell in SHELLS:
            for file in (missing, self.folder, os.path.join(unreadable, 'x'), unreadable):
                with self.subTest(file=file, shell=shell):
                    # Root reads everything.
                    done = run(file, '7', command=script, shell=shell, preexec_fn=lambda: os.getuid() or os.setuid(65534))
                    self.ended(2, '', "deletion: %s can't be read\n" % file, done)

    def test_a_file_that_cannot_be_opened(self):
        """A socket can be read by what its mode says."""
        file = self.path('socket')
        os.mknod(file, stat.S_IFSOCK | 0o644)
        for shell in SHELLS:
            for words in ([file], [file, '7']):
                with self.subTest(words=words, shell=shell):
                    self.ended(2, '', "socket", run(*words, shell=shell, stdin=returning(1)))

    def test_no_standard_input(self):
        file = self.write('image', returning(1))
        for shell in SHELLS:
            for words in ([], ['-'], ['-', '7']):
                with self.subTest(words=words, shell=shell):
                    self.ended(2, '', 'deletion: ', run(*words, shell=shell, stdin=None, preexec_fn=lambda: os.close(0)))
            self.ended(0, self.ANSWER, '', run(file, '7', shell=shell, stdin=None, preexec_fn=lambda: os.close(0)))
            folder = os.open(self.folder, os.O_RDONLY)
            for words in ([], ['-', '7']):
                with self.subTest(words=words, shell=shell, stdin='a folder'):
                    self.ended(2, '', 'deletion: ', run(*words, shell=shell, stdin=folder))
            os.close(folder)

    def test_without_end(self):
        """No more is read, or put away, than the program reads."""
        with open('/dev/zero', 'rb') as zero:
            done = run('-', '7', stdin=zero, preexec_fn=lambda: resource.setrlimit(resource.RLIMIT_FSIZE, (10**6, 10**6)))
        self.ended(3, 'f0030000000000000000\n', '', done)
        with open(self.path('large'), 'wb') as large:
            large.truncate(10**10)
        self.ended(3, 'f0030000000000000000\n', '', run(self.path('large'), '7'))

    def test_nothing_is_left_behind(self):
        for words, status in ((['-', '7'], 0), (['-', '7', '8'], 2)):
            self.assertEqual(status, run(*words, stdin=returning(1), env={'TMPDIR': self.folder}).status)
            self.assertEqual([], os.listdir(self.folder))
        self.ended(2, '', 'deletion: ', run('-', '7', stdin=returning(1), env={'TMPDIR': self.path('missing')}))


class Words(Case):
    def test_help(self):
        for shell in SHELLS:
            for words in (['--help'], ['--budget', '5', '--help', 'x']):
                done = run(*words, shell=shell)
                self.assertEqual((0, ''), (done.status, done.err), done)
                for part in ('usage: ./deletion', '--budget N', 'ARGUMENT', 'Exit status:', *('\n  %d  ' % status for status in range(6))):
                    self.assertIn(part, done.out)

    def test_version(self):
        for shell in SHELLS:
            self.ended(0, 'deletion 0.3.0\n', '', run('--version', shell=shell))

    def test_an_unknown_option_is_named(self):
        for word in ('-x', '--budgets', '-h', '---', '--budget5'):
            self.ended(2, '', 'no option %s; usage: ./deletion [--budget N] [FILE [ARGUMENT...]]' % word, run(word))

    def test_symbolic_links(self):
        os.makedirs(self.path('bin', 'inner'))
        os.symlink(COMMAND, self.path('link'))
        os.symlink('../../link', self.path('bin', 'inner', 'chain'))
        os.symlink('inner/chain', self.path('bin', 'a chain'))
        os.symlink(ROOT, self.path('repository'))
        for command, cwd in ((self.path('link'), '/'), ('./link', self.folder), (self.path('bin', 'inner', 'chain'), '/'),
                             ('./bin/a chain', self.folder), ('bin/a chain', self.folder), ('../bin/a chain', self.path('bin')),
                             (self.path('repository', 'deletion'), '/')):
            for shell in SHELLS:
                with self.subTest(command=command, shell=shell):
                    self.ended(0, Images.ANSWER, '', run('-', '7', command=command, shell=shell, cwd=cwd, stdin=returning(1)))
        path = self.path('bin') + ':' + os.environ['PATH']
        self.ended(0, Images.ANSWER, '', run('-c', '"a chain" - 7', command='sh', env={'PATH': path}, stdin=returning(1)))


class Surroundings(Case):
    def test_odd_environments(self):
        kept = self.write('kept', 'kept')
        own = dict.fromkeys('budget file copy first parameters script root program rt log status home tools emulator word answer usage'.split(), kept)
        for changes in ({'IFS': '0123456789abcdef/ -'}, {'POSIXLY_CORRECT': '1'}, {'HOME': None}, {'CDPATH': '/:/tmp:.'}, {'LC_ALL': 'xx_XX.odd'},
                        {'LC_ALL': 'C.UTF-8'}, {'LANG': None, 'LC_ALL': None}, {'PWD': '/nowhere', 'OLDPWD': None},
                        {'TMPDIR': self.new_folder() + '/.'}, {'QEMU_STRACE': '1', 'QEMU_LD_PREFIX': 'a b', 'ODD': 'x\nQEMU_y=1'},
                        {'ENV': kept, 'TERM': None, 'USER': None}, own):
            for shell in SHELLS:
                with self.subTest(changes=changes, shell=shell):
                    done = run('-', '7', shell=shell, stdin=returning(1), env=changes)
                    self.assertEqual((0, Images.ANSWER), (done.status, done.out), done)
                    done = run('-', '7', '8', shell=shell, stdin=returning(1), env=changes)
                    self.ended(2, '', 'deletion: ', done)
        self.assertTrue(os.path.exists(kept))

    def test_no_place_for_messages(self):
        file = self.write('image', returning(1))
        for shell in SHELLS:
            for words, status, out in (([file, '7'], 0, Images.ANSWER), (['-', '7'], 0, Images.ANSWER), ([file, 'x'], 2, REFUSED_ARGUMENT),
                                       ([file, '7', '8'], 2, ''), (['missing', '7'], 2, '')):
                with self.subTest(words=words, shell=shell):
                    self.ended(status, out, '', run(*words, shell=shell, stdin=returning(1), preexec_fn=lambda: os.close(2)))
            with open(os.devnull) as nowhere:
                self.ended(5, '', '', run(file, '7', shell=shell, stdout=nowhere, preexec_fn=lambda: os.close(2)))

    def test_no_toolchain(self):
        for name in ('readlink', 'dirname', 'sh'):
            os.symlink(shutil.which(name), self.path(name))
        file = self.write('image', returning(1))
        self.ended(2, '', "deletion: the toolchain's command, rt, is not on the path\n", run(file, env={'PATH': self.folder, 'RT': None}))
        self.ended(2, '', "deletion: the toolchain's command, no-such-rt, is not on the path\n", run(file, '7', env={'RT': 'no-such-rt'}))

    def test_another_toolchain(self):
        os.symlink(shutil.which(os.environ.get('RT') or 'rt'), self.path('another'))
        for env, cwd in (({'RT': self.path('another')}, '/'), ({'RT': './another'}, self.folder),
                         ({'RT': 'another', 'PATH': self.folder + ':/usr/bin:/bin'}, '/')):
            with self.subTest(env=env):
                self.ended(0, Images.ANSWER, '', run('-', '7', env=env, cwd=cwd, stdin=returning(1)))


# Says `version`, and builds as a test has it; it is run in the crate's folder.
RT = '''#!/bin/sh
case $* in
version) echo "%s" ;;
run) %s ;;
*) exit 3 ;;
esac
'''
PROGRAM = 'crates/deletion/out/deletion'
BUILDS = 'mkdir -p out; echo %s >out/deletion' % FINISHED.strip()
PROVES = "proves() { echo \"rt: chose --jobs 1 for $1\" >&2; echo 'logic=proved functions=1' >&2; }; proves slices; "
# Stands for the C library's loader, which runs the program: writes what the program's file has, the image's first line, and its words.
LOADER = '''#!/bin/sh
cat "$3"
IFS= read -r line
echo "image $line"
shift 3
for word; do echo "word $word"; done
'''


class Copy(Case):
    """A copy of the script and of all that it uses, in a folder whose name has blanks. The program is a text: what it would write."""

    def setUp(self):
        self.folder = os.path.join(self.new_folder(), 'a copy')
        for name in ('deletion', 'tools/progress', 'tools/toolchain'):
            os.makedirs(os.path.dirname(self.path(name)), exist_ok=True)
            shutil.copy(os.path.join(ROOT, name), self.path(name))
        self.write('toolchain', 'kit 1\n')
        self.write('crates.txt', '# a comment\nslices:\nchoices: slices\nother: slices\ndeletion: slices choices io os\n')
        self.write('crates/slices/src/lib.rt', '')
        self.write('crates/deletion/src/main.rt', '')
        self.loader(LOADER)
        self.toolchain(PROVES + BUILDS)

    def loader(self, text):
        self.write('kit/toolchain/lib/ld-linux-x86-64.so.2', text, 0o755)

    def toolchain(self, check, version='kit 1'):
        self.write('kit/bin/rt', RT % (version, check), 0o755)

    def program(self, text):
        """As if it had been built after the crates."""
        os.utime(self.write(PROGRAM, text), (2**32 - 1,) * 2)

    def environment(self):
        return {'PATH': self.path('kit', 'bin') + ':' + os.environ['PATH'], 'RT': None}

    def run_copy(self, *words, stdin=b'an image\n', env=None, **more):
        return run(*words, command=self.path('deletion'), stdin=stdin, env={**self.environment(), **(env or {})}, **more)


class Handing(Copy):
    """What the program gets, and what is made of its answer."""

    def test_words(self):
        self.program(FINISHED)
        start = FINISHED + 'image an image\n'
        for words, handed in (([], ''), (['-'], ''), (['--'], ''), (['--budget', '007'], 'word 7\n'), (['--budget=0', '-'], 'word 0\n'),
                              (['-', 'nil'], 'word 1000000\nword nil\n'),
                              (['--budget', '5', '-', '', ' a  b', '*', '--'], 'word 5\nword \nword  a  b\nword *\nword --\n')):
            for shell in SHELLS:
                with self.subTest(words=words, shell=shell):
                    self.ended(0, start + handed, '', self.run_copy(*words, shell=shell))

    def test_answers(self):
        """By --help's table; 5, 6 and 60 are none that the program gives, nor is nothing."""
        statuses = {0: 0, 20: 2, 70: 4, 5: 2, 6: 2, 17: 2, 29: 2, 47: 2, 49: 2, 55: 2, 60: 2, 69: 2, 71: 2, 255: 2}
        statuses.update({number: 3 for number in (*range(1, 5), *range(10, 17))})
        statuses.update({number: 1 for number in (*range(30, 47), *range(50, 55))})
        for number, status in statuses.items():
            answer = 'f0%02x0000000000000000\n' % number
            self.program(answer)
            with self.subTest(number=number):
                self.ended(status, answer + 'image an image\n', 'deletion: ' if status == 2 or number == 1 else '', self.run_copy())
        self.loader('#!/bin/sh\n')
        self.assertEqual(2, self.run_copy().status)

    def test_a_program_that_breaks_off(self):
        self.program(FINISHED)
        for text in ('#!/bin/sh\necho half\nexit 1\n', '#!/bin/sh\necho half\nkill -9 $$\n', '#!/no/such/loader\n'):
            self.loader(text)
            self.ended(2, '', 'deletion: the program broke off\n', self.run_copy('-', '1'))

    def test_nothing_is_run_where_nothing_can_be_written(self):
        self.program(FINISHED)
        self.loader('#!/bin/sh\necho running >&2\n')
        for shell in SHELLS:
            done = self.run_copy(shell=shell, preexec_fn=lambda: os.close(1))
            self.assertEqual((5, LOST), (done.status, done.err))

    def test_nothing_is_left_behind_by_a_signal(self):
        """An image that came by a pipe, with an argument, was put away for a while."""
        self.program(FINISHED)
        self.loader('#!/bin/sh\necho running >&2\nexec sleep 60\n')
        kept = self.new_folder()
        for number in (signal.SIGTERM, signal.SIGINT, signal.SIGHUP, signal.SIGKILL):
            with started([self.path('deletion'), '-', '1'], {**self.environment(), 'TMPDIR': kept}) as process:
                process.stdin.write(returning(1))
                process.stdin.close()
                self.assertEqual(b'running\n', process.stderr.readline())
                os.killpg(process.pid, number)
                process.wait()
            with self.subTest(signal=number):
                self.assertEqual([], os.listdir(kept))


class Building(Copy):
    BEGINS = 'deletion: proving and building the program (rt run in crates/deletion); from nothing this takes some minutes\n'
    ANSWER = FINISHED + 'image an image\n'

    def test_a_line_for_each_crate(self):
        # of slices, which was proved before, nothing is said
        self.toolchain(PROVES.replace('slices', 'choices') + "echo 'fn deletion::main: proved' >&2; proves deletion; echo f001; " + BUILDS)
        lines = self.BEGINS + 'deletion: 2 of 3 crates proved: choices\ndeletion: 3 of 3 crates proved: deletion\n'
        for shell in SHELLS:
            done = self.run_copy(shell=shell)
            self.ended(0, self.ANSWER, lines, done)
            self.assertEqual(lines, done.err)
            os.remove(self.path(PROGRAM))

    def test_as_they_come(self):
        """The toolchain goes on only after its first line has been seen."""
        fifo = self.path('fifo')
        os.mkfifo(fifo)
        self.toolchain(PROVES + "read go <'%s'; proves choices; " % fifo + BUILDS)
        with started([self.path('deletion')], self.environment()) as process:
            self.assertEqual(self.BEGINS.encode(), process.stderr.readline())
            self.assertEqual(b'deletion: 1 of 3 crates proved: slices\n', process.stderr.readline())
            self.assertIsNone(process.poll())
            with open(fifo, 'w') as go:
                go.write('go\n')
            out, err = process.communicate(b'an image\n')
        self.assertEqual((0, self.ANSWER.encode(), b'deletion: 2 of 3 crates proved: choices\n'), (process.returncode, out, err))

    def test_only_where_a_crate_has_changed(self):
        self.program(FINISHED)
        self.ended(0, self.ANSWER + 'word 5\n', '', self.run_copy('--budget', '5'))
        os.utime(self.path(PROGRAM), (1, 1))
        self.ended(0, self.ANSWER + 'word 5\n', '1 of 3 crates proved', self.run_copy('--budget', '5'))
        self.ended(0, self.ANSWER + 'word 5\n', '', self.run_copy('--budget', '5'))

    def test_again_where_the_program_is_missing(self):
        """Also where the toolchain's own note of it is still there."""
        self.write(PROGRAM + '.stamp', '')
        self.ended(0, self.ANSWER, '1 of 3 crates proved', self.run_copy())

    def test_the_image_is_left_to_the_program(self):
        self.toolchain(PROVES + 'cat >/dev/null; ' + BUILDS)
        self.ended(0, self.ANSWER, '1 of 3 crates proved', self.run_copy())

    def test_a_failure_shows_the_end_of_what_was_said(self):
        self.toolchain(PROVES + 'exec >&2; for i in 1 2 3 4 5; do for j in 1 2 3 4 5 6 7 8 9 10; do echo "line $i$j"; done; done; printf "the last"; exit 1')
        for shell in SHELLS:
            done = self.run_copy(shell=shell)
            self.ended(2, '', 'line 510\n', done)
            self.assertNotIn('line 11\n', done.err)
            self.assertIn('the last', done.err)
            self.assertTrue(done.err.endswith('deletion: the program could not be built\n'))
            self.assertFalse(os.path.exists(self.path(PROGRAM)))

    def test_a_toolchain_that_makes_no_program(self):
        """Nothing may stand in the program's place afterwards."""
        self.toolchain(PROVES + 'true')
        for _ in range(2):
            self.ended(2, '', 'deletion: the program could not be built\n', self.run_copy())

    def test_another_version(self):
        self.toolchain(PROVES + BUILDS, version='kit 2')
        self.ended(0, self.ANSWER, "deletion: this toolchain is 'kit 2', and the repository was last proved with 'kit 1'", self.run_copy())

    def test_a_target_that_cannot_be_written(self):
        self.write('target', 'a file')
        self.ended(2, '', 'deletion: the program could not be built\n', self.run_copy('--budget', '5'))

    def test_a_change_while_it_is_built(self):
        """It may have come too late for the toolchain."""
        self.toolchain(PROVES + 'sleep 0.05; touch ../slices/src/lib.rt; ' + BUILDS)
        for _ in range(2):
            self.ended(0, self.ANSWER, '1 of 3 crates proved', self.run_copy())

    def test_links_and_other_places(self):
        os.symlink(self.path('deletion'), self.path('kit', 'a link'))
        kit, path = self.path('kit'), os.environ['PATH']
        for command, cwd, env in (
                ('./a link', kit, {}), (self.path('kit', 'a link'), '/', {'CDPATH': '/'}),
                ('./deletion', self.folder, {'PATH': path, 'RT': 'kit/bin/rt'}), (self.path('deletion'), kit, {'PATH': path, 'RT': './bin/rt'}),
                (self.path('deletion'), kit, {'PATH': 'bin:' + path})):
            for shell in SHELLS:
                with self.subTest(command=command, env=env.get('RT'), shell=shell):
                    done = run(command=command, shell=shell, cwd=cwd, stdin=b'an image\n', env={**self.environment(), **env})
                    self.ended(0, self.ANSWER, '1 of 3 crates proved: slices', done)
                    self.assertNotIn("can't be run", done.err)
                    os.remove(self.path(PROGRAM))

    def test_a_shell_that_finds_the_script_by_itself(self):
        """bash then doesn't say where it lies: nothing may be built in a folder that isn't the repository."""
        nowhere = self.new_folder()
        env = {**self.environment(), 'PATH': self.folder + ':' + self.environment()['PATH']}
        done = run('deletion', command='bash', cwd=nowhere, env=env)
        self.ended(2, '', 'deletion: ', done)
        self.assertNotIn(self.BEGINS, done.err)
        self.assertEqual([], os.listdir(nowhere))


class WalkThrough(Case):
    @unittest.skipUnless(shutil.which('luac5.3'), 'luac5.3 is missing')
    def test_the_readme_shows_what_is_so(self):
        """The commands of README.md, as they are typed, in a folder of their own."""
        with open(os.path.join(ROOT, 'README.md')) as file:
            section, = re.findall(r'^## From a rule to its answer\n(.*?)^## ', file.read(), re.M | re.S)
        for name in ('deletion', 'examples', 'tools'):
            os.symlink(os.path.join(ROOT, name), self.path(name))
        shown = re.findall(r'^    \$ (.*)\n((?:    [^$].*\n)*)', section, re.M)
        self.assertEqual(5, len(shown))
        for command, output in shown:
            with self.subTest(command):
                done = run('-c', command, command='sh', cwd=self.folder)
                self.assertEqual((0, ''), (done.status, done.err))
                if '--list' not in command:
                    self.assertEqual(re.sub('^    ', '', output, flags=re.M), done.out)


if __name__ == '__main__':
    if not os.path.isfile(os.path.join(ROOT, PROGRAM)):
        sys.exit('command: %s is missing: rt run in crates/deletion builds it' % PROGRAM)
    unittest.main()

"""What the tests share: the tally with its least number, how the two programs are run and their output read, the tables of a page, and mktrace as
a module.

The programs are run through a server, which takes one trace after the other and reports what became of each: status, standard output,
standard error. Where the program is one of ours, tests/serve.c is preloaded into it and calls its main for each trace; any other command
is started for each by tests/start_each. Both end what runs for 20 seconds."""
import argparse
import functools
import glob
import importlib.machinery
import importlib.util
import os
import re
import shlex
import shutil
import struct
import subprocess
import sys
import tempfile
from collections import namedtuple
from concurrent.futures import ThreadPoolExecutor

ROOT = os.path.dirname(os.path.dirname(os.path.abspath(__file__)))
MKTRACE = os.path.join(ROOT, 'tools', 'mktrace')
TESTS = os.path.join(ROOT, 'tests')
SECONDS = 20
CORES = len(os.sched_getaffinity(0))

# What ends a listing and an explanation of a malformed trace, and what standard error then says in one line.
MALFORMED = re.compile(r'(?:.*\n)?(?:\d+ R8|entry \d+: R8, [^\n]+)\n', re.S)
HINT = re.compile(rb'R8: [ -~]+\n')

# One entry behind its number, as docs/EXPLAIN.md has it, with the fields that the listing has too.
ENTRY = re.compile(
    r'(?:(?P<refusal>R[1-8]), [^\n]+|(?P<answer>W|[SFH]\.\d+), [^\n]+\n'
    r'(?:  row       (?P<row>\d+)\n)?'
    r'(?:  remaining (?P<remaining>\d+)\n)?'
    r'  state     (?:GiveSourceCap\((?P<asked>Spr|Epr)\), transmit|[^\n]+)\n'
    r'  mode      (?P<mode>Spr|Epr)\n'
    r'  contract  (?P<contract>[DNITE]), [^\n]+\n'
    r'  counts    hard reset (?P<hard>\d+) of (?P<hard_limit>\d+), capabilities (?P<caps>\d+) of (?P<caps_limit>\d+)\n'
    r'  port      vconn_source (?P<vconn>true|false) \(created (?P<created>true|false)\), dual_role (?:true|false), data_role (?P<role>Dfp|Ufp), '
    r'setting (?P<setting>crate|standard)'
    r'(?P<actions>(?:\n  action    \d+\.\d+, [^\n]+){0,2}))')

# Action 28, swap_data_role, by the role that it names.
ROLES = {'28.0': 'Ufp', '28.1': 'Dfp'}
# Action 14, drive_vconn, by whether this port then feeds VCONN.
VCONN = {'14.0': 'false', '14.1': 'true'}
# Action 4, send capabilities, by their kind.
KINDS = {'Spr': '4.0', 'Epr': '4.1'}


class Tally:
    """Counts the checks of a test; tests/least says how many there must be at least."""

    def __init__(self):
        self.passed = self.failed = 0

    def check(self, name, ok, detail=''):
        self.passed += bool(ok)
        self.failed += not ok
        if not ok:
            print(f'FAILED: {name}' + (f': {detail}' if detail else ''))

    def end(self):
        """Prints the last line; the exit status."""
        name = os.path.basename(sys.argv[0])
        with open(os.path.join(TESTS, 'least'), encoding='ascii') as file:
            least = dict(re.findall(r'^(\S+) +(\d+)', file.read(), re.M))
        found = self.passed + self.failed
        self.check(f'{name}: as many checks as tests/least says', int(least.get(name, found + 1)) <= found, f'{found} of {least.get(name)}')
        print(f'{self.passed} passed, {self.failed} failed')
        return 1 if self.failed or not self.passed else 0


def options(description):
    parser = argparse.ArgumentParser(description=description, formatter_class=argparse.RawDescriptionHelpFormatter)
    parser.add_argument('--list', metavar='CMD', default='./pes list', help='the listing program (default: %(default)s)')
    parser.add_argument('--explain', metavar='CMD', default='./pes explain', help='the explaining program (default: %(default)s)')
    return parser


def kept(pattern):
    """The files kept in traces/ that are named so. Those of the flows are left to tests/flows: they are many, and made from the tables."""
    found = glob.glob(os.path.join(ROOT, 'traces', '**', pattern), recursive=True)
    return sorted(path for path in found if not path.startswith(os.path.join(ROOT, 'traces', 'flows', '')))


# ---------------------------------------------------------------- running the programs

def kit():
    """The kit's tools, or None."""
    rt = shutil.which('rt')
    tools = rt and os.path.join(os.path.dirname(os.path.dirname(os.path.realpath(rt))), 'toolchain')
    return tools if tools and os.path.isdir(tools) else None


def built(name):
    """Where the kit leaves a program of ours, once it is proved."""
    return os.path.join(ROOT, 'crates', name, 'out', name)


def preload():
    """serve.c as a library, built where it is missing or old; None where it cannot be built."""
    tools, source, made = kit(), os.path.join(TESTS, 'serve.c'), os.path.join(ROOT, 'target', 'tests', 'serve.so')
    if os.path.exists(made) and os.path.getmtime(made) > os.path.getmtime(source):
        return made
    if not tools:
        return None
    os.makedirs(os.path.dirname(made), exist_ok=True)
    words = [os.path.join(tools, 'bin', 'clang'), '--target=x86_64-unknown-linux-gnu', '-O2', '-fPIC', '-shared', '-nostdlib', '-fuse-ld=lld',
             source, '-o', f'{made}.{os.getpid()}']
    if subprocess.run(words, stdout=subprocess.DEVNULL, stderr=subprocess.DEVNULL, check=False).returncode:
        return None
    os.replace(words[-1], made)
    return made


def served(program):
    """A program of ours with serve.c in it; None where that cannot be."""
    library = preload()
    return library and ['/usr/bin/env', f'LD_PRELOAD={library}', program]


def is_program(path):
    if not os.path.isfile(path):
        return False
    with open(path, 'rb') as file:
        return file.read(4) == b'\x7fELF'


def server(command):
    """The words that start a server of a command: `./pes NAME` once NAME is built, or a program alone."""
    words = shlex.split(command)
    program = built(words[1]) if words[0] == './pes' and len(words) == 2 else os.path.join(ROOT, words[0])
    if (words[0] == './pes' or len(words) == 1) and is_program(program) and served(program):
        return served(program)
    return starter(command)


def starter(command):
    return [sys.executable, os.path.join(TESTS, 'start_each'), *shlex.split(command)]


def judged(status, out, err):
    """0, or what is wrong; and the output as text. Standard error has a hint where the trace is malformed, and else nothing; ./pes then ends with 3."""
    text = out.decode(errors='replace')
    if isinstance(status, str):
        return status, text
    if (HINT.fullmatch(err) and status in (0, 3)) if MALFORMED.fullmatch(text) else (not err and status == 0):
        return 0, text
    if status == -14:
        status = f'no end within {SECONDS} s'
    elif status == -1000:
        status = f'could not be started: {err.decode(errors="replace")}'
    elif status < 0:
        status = f'killed by signal {-status}'
    elif status > 0:
        status = f'ended with {status}'
    else:
        status = f'said on standard error: {err[:200].decode(errors="replace")!r}'
    return status, text


def serve(words, traces):
    """[(status, standard output, standard error)] of the traces by one server. A server that ends early is a fault of all that is left; after a
    trace that hangs nothing more is tried."""
    found, hung = [], False
    with subprocess.Popen(words, cwd=ROOT, stdin=subprocess.PIPE, stdout=subprocess.PIPE, stderr=subprocess.DEVNULL) as child:
        for trace in traces:
            try:
                if hung:
                    raise BrokenPipeError
                child.stdin.write(struct.pack('<I', len(trace)) + trace)
                child.stdin.flush()
                head = child.stdout.read(12)
                if len(head) < 12:
                    raise BrokenPipeError
                status, out, err = struct.unpack('<iII', head)
                hung = status == -14
                found.append((status, child.stdout.read(out), child.stdout.read(err)))
            except (BrokenPipeError, OSError):
                found.append(('not run: a trace before it had no end' if hung else 'its server has ended', b'', b''))
        try:
            child.stdin.close()
        except OSError:
            pass
    return found


def report_all(command, traces, words=None):
    """[(status, standard output, standard error)]: what a command makes of each trace, by a server on each processor."""
    traces, words = list(traces), words or server(command)
    shares = [traces[start::CORES] for start in range(CORES)]
    with ThreadPoolExecutor(CORES) as pool:
        found = list(pool.map(lambda share: serve(words, share) if share else [], shares))
    return [found[place % CORES][place // CORES] for place in range(len(traces))]


def run_all(command, traces, words=None):
    """[(status, text)]: the same, judged. The status is 0, or what is wrong."""
    return [judged(*report) for report in report_all(command, traces, words)]


def start_all(command, traces):
    """The same with a plain start of the command for each, and a pipe for its input."""
    return run_all(command, traces, starter(command))


# ---------------------------------------------------------------- building without proof

# `rt try` has clang compile a program's module with checks, and throws away what it makes. Here the module is kept, with the words that clang was given,
# and the failure ends the rest.
CLANG = """#!/bin/sh
case " $* " in *" -fsanitize=address "*) ;; *) exec {real} "$@" ;; esac
printf '%s\\n' "$@" >{kept}/words
for word; do case $word in *.bc) cp "$word" {kept}/module.bc ;; esac; done
exit 1
"""


def mirror(real, copy, others):
    """A folder of links to all that `real` has, but for these files, which are made: {path: what makes it there}."""
    os.makedirs(copy)
    inside = {path[0] for path in others}
    for name in set(os.listdir(real)) - inside:
        os.symlink(os.path.join(real, name), os.path.join(copy, name))
    for name in inside:
        if (name,) in others:
            others[name,](os.path.join(copy, name))
        else:
            mirror(os.path.join(real, name), os.path.join(copy, name), {path[1:]: made for path, made in others.items() if path[0] == name})


def compiled(crate, kept):
    """What clang is to compile of a program that is not proved: its words, which are run in the folder `kept`, where module.bc then is. None, and what was
    said, where there is nothing to compile."""
    shutil.rmtree(kept, ignore_errors=True)
    os.makedirs(kept)
    real = os.path.dirname(kit())

    def clang(path):
        with open(path, 'w', encoding='utf-8') as file:
            file.write(CLANG.format(real=shlex.quote(os.path.join(kit(), 'bin', 'clang')), kept=shlex.quote(kept)))
        os.chmod(path, 0o755)

    with tempfile.TemporaryDirectory() as room:
        home = os.path.join(room, 'kit')
        # rt looks for the kit where it stands itself, so it is no link.
        own = {('bin', name): lambda path, name=name: shutil.copy(os.path.join(real, 'bin', name), path) for name in ('rt', 'rtlib.py')}
        mirror(real, home, {**own, ('toolchain', 'bin', 'clang'): clang})
        tried = subprocess.run([os.path.join(home, 'bin', 'rt'), 'try', '--steps', '1'], cwd=crate, stdin=subprocess.DEVNULL, capture_output=True, text=True,
                               check=False)
    if not os.path.exists(os.path.join(kept, 'module.bc')):
        return None, tried.stdout + tried.stderr
    with open(os.path.join(kept, 'words'), encoding='utf-8') as file:
        return [word.replace(home, real) for word in file.read().splitlines()], ''


# ---------------------------------------------------------------- reading what they print

def lines_of(text):
    """The lines of a text of which every line ends, by a newline and nothing else."""
    lines = text.split('\n')
    return lines[:-1] if lines[-1] == '' and '\r' not in text else ['(not lines)']


def attempts(found, actions):
    """The attempts that may remain by the other lines of an entry: limit minus count where 13.0 or 2.2 is issued, 0 with 10.0. F.1 is a failed
    attempt, or a drive that the DPM failed: that is none."""
    if '13.0' in actions:
        return [int(found['hard_limit']) - int(found['hard'])]
    if '2.2' in actions:
        return [int(found['caps_limit']) - int(found['caps'])]
    if '10.0' in actions:
        return [0]
    return [None, 0] if found['answer'] == 'F.1' else [None]


# What an entry of an explanation implies: its line, without the number, and where it is no refusal what it tells of the port; `fixed` is its setting
# and its creation value of vconn_source.
Told = namedtuple('Told', 'line role fixed vconn')


@functools.lru_cache(maxsize=None)
def told_by(entry):
    """What an entry implies; None where it is not in its format, tells other attempts than its counts do, or gives capabilities of another kind than its
    setting does."""
    found = ENTRY.fullmatch(entry)
    if not found:
        return None
    actions = re.findall(r'^  action    (\d+\.\d+)', found['actions'] or '', re.M)
    if (found['remaining'] and int(found['remaining'])) not in attempts(found, actions):
        return None
    if found['asked'] and actions != [KINDS[found['mode' if found['setting'] == 'crate' else 'asked']]]:
        return None
    line = ' '.join([*filter(None, found.group('refusal', 'answer', 'contract', 'hard', 'caps')), *actions])
    return Told(line, found['role'], found.group('setting', 'created'), found['vconn'])


def fed(vconn, awaited, told):
    """Who feeds VCONN after an entry that is no refusal, by the lines alone: under standard 1.0 with 3.0 or 2.1 sets the creation value back, and an outcome
    of 14 that is no failure (F) sets what it drove, but for TransitionToDefault's, which 15.0 follows."""
    setting, created = told.fixed
    if setting == 'crate' or vconn is None or re.search(r' 1\.0 (3\.0|2\.1)$', told.line):
        return created
    if awaited in VCONN and not told.line.startswith('F') and not told.line.endswith(' 15.0'):
        return VCONN[awaited]
    return vconn


def listing_of(explained):
    """The listing that an explanation implies, or None where the explanation is not in its format, tells another data role than its actions do (Dfp at
    first, and where 28 was awaited and an outcome accepted, which is its Done, the role that 28 named), another that feeds VCONN, or another setting or
    creation value than at first."""
    first, *entries = ('\n' + explained).split('\nentry ')
    if first or not explained.endswith('\n'):
        return None
    lines, role, vconn, fixed, awaited, entries[-1:] = [], 'Dfp', None, set(), None, [entries[-1][:-1]] if entries else []
    for entry in entries:
        number, _, rest = entry.partition(': ')
        told = told_by(rest)
        if told is None or not number.isdecimal():
            return None
        if told.role:
            role, vconn = ROLES.get(awaited, role), fed(vconn, awaited, told)
            fixed.add(told.fixed)
            if (told.role, told.vconn) != (role, vconn) or len(fixed) > 1:
                return None
            awaited = told.line.split(' ')[-1]
        lines.append(f'{number} {told.line}\n')
    return ''.join(lines)


def first_difference(expected, found):
    for want, got in zip(expected.split('\n') + ['(end)'], found.split('\n') + ['(end)']):
        if want != got:
            return f'expected {want!r}, found {got!r}'
    return 'no line differs'


# ---------------------------------------------------------------- reading pages

def read(path):
    """A file of the repository, as text."""
    with open(os.path.join(ROOT, path), encoding='utf-8', errors='replace') as file:
        return file.read()


def read_bytes(path):
    """A file of the repository, as it is."""
    with open(os.path.join(ROOT, path), 'rb') as file:
        return file.read()


def rows(page, first):
    """The rows of the table whose head begins with this word."""
    table = re.search(rf'^\| {first} \|.*\n\|[-|]+\|\n((?:\|.*\n?)+)', page, re.M)
    return [[cell.strip() for cell in row.rstrip('\n')[1:-1].split('|')] for row in table.group(1).splitlines()] if table else []


def phrases(cell):
    """What stands in backquotes."""
    return re.findall(r'`([^`]+)`', cell)


def mktrace():
    loader = importlib.machinery.SourceFileLoader('mktrace', MKTRACE)
    module = importlib.util.module_from_spec(importlib.util.spec_from_loader('mktrace', loader))
    loader.exec_module(module)
    return module

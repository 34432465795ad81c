"""docs/HOST.md against what it tells of: the paper by its numbers (Paper.antt), the events (Events.antt), the Rust under oracle/, and the programs.

What the definition says is read from its text. A line of it that has another form than the ones below is a fault, and so is a row of the page
that is missing or too many."""
import itertools
import os
import re
import shutil
import subprocess
import tempfile

import common
import events

MODEL = 'crates/definition/specs/'
ENGINE = 'oracle/src/source/policy_engine/mod.rs'
ACTIONS = range(1, 30)


class Unread(Exception):
    """A line of the definition, of the Rust or of the page that is not in a form that is read here."""


def read_by(pattern, text, what):
    found = re.findall(pattern, text, re.M)
    if not found:
        raise Unread(f'nothing in the form of {what}')
    return found


def clauses(text, name):
    """What stands behind the signature of a name, up to the next signature."""
    found = re.search(rf'^(?:abbrev |unfoldable )?pub {re.escape(name)} : .*\n((?:.+\n)+)', re.sub(r'^ *--.*\n', '', text, flags=re.M), re.M)
    if not found:
        raise Unread(f'no definition of {name}')
    return found.group(1)


def numbers(text):
    return [int(one.replace(',', '')) for one in re.findall(r'\d[\d,]*', text)]


def chosen(test):
    """The numbers from 1 to 29 that a test on the number of an action takes."""
    known = [(r'not \((one_of .*)\)', lambda m: set(ACTIONS) - chosen(m[1])),
             (r'one_of \(([\d∷ ]+)\[\]\) \(?(?:a\.)?number\)?', lambda m: set(numbers(m[1]))),
             (r'(?:a\.)?number is (\d+).*', lambda m: {int(m[1])})]
    for pattern, made in known:
        found = re.fullmatch(pattern, test.strip())
        if found:
            return made(found)
    raise Unread(f'a test of another form: {test}')


def fitting(paper):
    """{outcome: the numbers of the actions that it fits}"""
    out = {}
    for name, test in read_by(r'^fits a \(?Outcome\.(\w+)(?: \w+\))? = (.*)$', paper, '`fits a OUTCOME = ..`'):
        if test.startswith('message_fits'):
            out[name] = set(map(int, read_by(r'number is (\d+) ⇒', clauses(paper, 'message_fits'), 'message_fits')))
        elif test.startswith('timeout_fits'):
            out[name] = set(map(int, read_by(r'number is (\d+)', clauses(paper, 'timeout_fits'), 'timeout_fits')))
        else:
            out[name] = chosen(test)
    return out


def named_arguments(paper):
    """{number of an action: its arguments}"""
    out = {}
    for row in clauses(paper, 'argument_named').split('\n')[1:-1]:
        test, _, named = re.sub(r' ∣$', '', row.strip()).partition(' ⇒ ')
        if not named:
            test, _, named = test.partition(' && ')
        listed, highest = re.fullmatch(r'one_of \(([\d∷ ]+)\[\]\) argument', named), re.fullmatch(r'leb argument (\d+)', named)
        one = re.fullmatch(r'argument is (\d+)', named)
        if not (listed or highest or one):
            raise Unread(f'arguments of another form: {named}')
        for number in chosen(test):
            out[number] = numbers(listed[1]) if listed else list(range(int(highest[1]) + 1)) if highest else [int(one[1])]
    return out


def of_cell(cell):
    """The numbers of a cell: `0 to 31`, or each that stands there."""
    reach = re.match(r'(\d+) to (\d+)', cell)
    return list(range(int(reach[1]), int(reach[2]) + 1)) if reach else numbers(cell)


def check_actions(tally, page):
    paper = common.read(MODEL + 'Paper.antt')
    fits, named = fitting(paper), named_arguments(paper)
    carrying = set(numbers(read_by(r'xnor \(one_of \(([\d∷ ]+)', paper, 'which actions carry a request')[0]))
    table = {int(row[0]): row for row in common.rows(page, 'No')}
    tally.check('HOST.md: actions 1 to 29', list(table) == list(ACTIONS), list(table))
    for number, row in table.items():
        wanted = {name for name, fitted in fits.items() if number in fitted}
        shown = set(common.phrases(row[4]))
        tally.check(f'HOST.md: what fits action {number}', shown == wanted if number > 1 else row[4] == 'never awaited', f'{sorted(wanted)}')
        tally.check(f'HOST.md: the arguments of action {number}', of_cell(row[2]) == named[number], named[number])
        tally.check(f'HOST.md: what action {number} carries', bool(row[6]) == (number in carrying))
    told = {phrase for row in common.rows(page, 'Outcome') for phrase in common.phrases(row[0])}
    tally.check('HOST.md: every outcome is told of', told == set(fits), sorted(set(fits) ^ told))


# ---------------------------------------------------------------- timers

def timers_of(cell):
    """{argument or None: (timer, milliseconds)} of a cell."""
    out = {}
    for arguments, name, time in re.findall(r'((?:\d(?:, | and )?)*) ?`(\w+)` ([\d,]+) ms', cell):
        out.update(((argument, name), numbers(time)[0]) for argument in (numbers(arguments) or [None]))
    return out


def check_timers(tally, page):
    known = dict(read_by(r'TimerType::(\w+) => TIMER::after_millis\((\d+)\)', common.read('oracle/src/timers.rs'), 'the timers'))
    words = {row[0].split('.')[0]: row for row in common.rows(common.read('docs/EXPLAIN.md'), 'Action')}
    for row in common.rows(page, 'No'):
        shown = timers_of(row[5])
        for (argument, name), time in shown.items():
            tally.check(f'HOST.md: {name} of action {row[0]}', known.get(name) == str(time), known.get(name))
        if row[0] == '2':
            said = dict(zip(numbers(words['2'][0])[1::2], re.findall(r'timer: (\w+)', words['2'][1])))
            tally.check('HOST.md: the timers of action 2', {arg: name for arg, name in shown} == said, said)
        if row[0] == '17':
            said = {int(arg): name for name, arg in re.findall(r' under (\w+)` \((\d)\)', words['17'][1])}
            tally.check('HOST.md: the timers of action 17', {arg: name for arg, name in shown} == said, said)
    seconds = read_by(r'WAIT_TIME_INCREMENT_S: usize = (\d+);', common.read(ENGINE), 'the wait for new capabilities')[0]
    waits = [numbers(row[5])[:1] for row in common.rows(page, 'No') if row[0] == '19']
    tally.check('HOST.md: the timer of action 19', waits == [[1000 * int(seconds)]], waits)


# ---------------------------------------------------------------- messages and timeouts that fit

def receivable(paper):
    """{action: the message that fits}"""
    names = {int(number): name for name, number in read_by(r'^class \(?Message\.(\w+)(?: \w+\))? = (\d+)$', paper, 'the classes')}
    out = {'5.0': names[0], '5.1': names[1]}
    if 'number is 5 ⇒ class m is argument' not in clauses(paper, 'message_fits'):
        raise Unread('what fits action 5')
    out.update((number, 'any') for number in read_by(r'number is (\d+) ⇒ true', clauses(paper, 'message_fits'), 'actions that take any message'))
    for number, kinds in read_by(r'number is (\d+) ⇒ (is_control.*) ∣', clauses(paper, 'message_fits'), 'actions that take some control messages'):
        out[f'{number}.0'] = f'Control {", ".join(re.findall(r"is_control (.+?) m", kinds))}'
    *rows, last = clauses(paper, 'receives').strip().split('\n')[1:]
    for row in rows:
        argument, kind, number = re.fullmatch(r' *argument is (\d) ⇒ (class m is|is_control) (\d+)(?: m)? ∣', row).groups()
        out[f'17.{argument}'] = names[int(number)] if kind == 'class m is' else f'Control {number}'
    return out | {f'17.{re.fullmatch(r" *argument is (.)", last)[1]}': 'any'}


def check_fitting(tally, page):
    paper = common.read(MODEL + 'Paper.antt')
    shown = {}
    for actions, message in common.rows(page, 'Action'):
        found = re.match(r'`(\w+)`(?: (\d+(?:, \d+)*))?|any', message)
        shown.update((action, ' '.join(filter(None, found.groups())) or 'any') for action in actions.split(', '))
    tally.check('HOST.md: which messages fit', shown == receivable(paper), sorted(set(shown.items()) ^ set(receivable(paper).items())))
    wanted = set()
    for name, number, listed in read_by(r'^timeout_fits number argument Timeout\.(\w+) = number is (\d+)(.*)$', paper, 'timeouts'):
        wanted |= {(f'{number}.{argument}', name) for argument in numbers(listed) or [0]}
    shown = {(row[0], name) for row in common.rows(page, 'Awaited') for name in common.phrases(row[1])}
    tally.check('HOST.md: which timeouts fit', shown == wanted, sorted(shown ^ wanted))


# ---------------------------------------------------------------- answers, targets, errors, refusals

TO_READY = 'done\ndone\nrequest fixed 0x1304b12c\naccept\ndone\ndone\ndone\n'


def check_targets(tally, page, command):
    """The names by the sentence that the definition quotes; what entering gives by `list`."""
    quoted = re.sub(r'\s*\n-- ', ' ', re.search(r'"Targets: .*?"', common.read(MODEL + 'Refusals.antt'), re.S).group())
    names = {int(number): name for number, name in re.findall(r'(\d+) (\w+)', quoted)}
    table = common.rows(page, 'Target')
    tally.check('HOST.md: the targets', {int(row[0]): common.phrases(row[1])[0] for row in table} == names, names)
    text = {True: 'create dual vconn 2 50\n' + TO_READY + 'control PrSwap\n', False: 'create dual vconn 2 50\ndone\nfailed 7\n'}
    tool, made = common.mktrace(), [(row, handed) for row in table for handed in (False, True)]
    listed = common.run_all(command, [tool.trace_of(f'{text[handed]}reenter {row[0]} keep\n') for row, handed in made])
    for (row, handed), (status, lines) in zip(made, listed):
        _, answer, *rest = lines.splitlines()[-1].split(' ') if lines else ('', '')
        given = ' '.join(rest[3:]) if answer == 'W' else answer
        wanted = common.phrases(row[2])[0] if handed or 'after a handover only' not in row[3] else 'R6'
        tally.check(f'HOST.md: target {row[0]} after {"H" if handed else "S"}', (status, given) == (0, wanted), f'{status} {given}')


def arms(rust):
    """The rows of run_step's match: [(states, errors, next state)]."""
    text = re.search(r'let new_state = match \(&self\.mode, &self\.state, protocol_error\) \{\n(.*?)\n {16}\};', rust, re.S)
    text = re.sub(r'\s+', ' ', re.sub(r'//[^\n]*', '', text.group(1)))
    out = []
    for state, error, after in re.findall(r'\( ?_, (.*?), ((?:ProtocolError::.*?|_|error)),? ?\) => (\{ .*? \}|Some\(State::\w+\))', text):
        names = re.findall(r'State::(\w+)((?:\([^|]*\)|\{[^}]*\})?)', re.sub(r'(?:SwapState|VcsState|\w*RoleSwap)::', '', state).replace(' ', ''))
        states = [name + re.sub(r'^\{state:(\w+),\.\.\}$', r'(\1)', inner).replace('(_)', '') for name, inner in names] or ['any']
        errors = re.findall(r'ProtocolError::(?:\w+\()?((?:RxError|TxError)::\w+|\w+)', re.sub(r'\(_\)', '', error)) or ['any']
        target = re.search(r'Some\(State::(\w+)\)', after)
        out.append((states, errors, target.group(1) if target else None))
    return out


def check_errors(tally, page):
    targets = {common.phrases(row[1])[0]: row[0] for row in common.rows(page, 'Target')}
    rust, table = arms(common.read(ENGINE)), common.rows(page, 'State')
    tally.check("HOST.md: as many rows as run_step's table", len(rust) == len(table) == 15, f'{len(rust)} in the Rust')
    for (states, errors, after), row in zip(rust, table):
        shown = tuple(common.phrases(cell) or ['any'] for cell in row[:2])
        tally.check(f'HOST.md: after {row[0]}, {row[1]}', shown == (states, errors), (states, errors))
        tally.check(f'HOST.md: where {row[0]}, {row[1]} leads', (common.phrases(row[2]) or [None]) == [after], after)
        tally.check(f'HOST.md: its target is {row[3]}', targets.get(after, 'its own') == row[3], targets.get(after))


def check_error_numbers(tally, page):
    """0 to 2 by the definition's sentence; every error of run_step has a number."""
    said = re.search(r'-- Errors (.*)', common.read(MODEL + 'Messages.antt')).group(1)
    shown = {common.phrases(row[0])[0].split('::')[-1]: row[1] for row in common.rows(page, 'Error of the crate') if common.phrases(row[0])}
    for number, name in re.findall(r'(\d) `(?:\w+::)?(\w+)`', said):
        exact = [row[1] for row in common.rows(page, 'Error of the crate') if re.search(rf'`(?:RxError::)?{name}`', row[0])]
        tally.check(f'HOST.md: error {number} is {name}', exact == [number], exact)
    asked = {name.split('::')[-1] for row in common.rows(page, 'State') for name in common.phrases(row[1])}
    tally.check('HOST.md: every error of run_step has a number', asked <= set(shown), sorted(asked - set(shown)))
    ends = [pair for row in common.rows(page, 'H') for pair in re.findall(r'\b(\d+), (\d)\b', row[3])]
    tally.check('HOST.md: the ends of handovers are targets', ends and all(int(target) < 12 and int(mode) < 3 for target, mode in ends), ends)


def check_refusals(tally, page):
    paper = common.read(MODEL + 'Paper.antt')
    quoted = dict(re.findall(r'"(R\d): (.*?)"', re.sub(r'\n-- ', ' ', paper), re.S)) | {'R8': 'malformed trace'}
    shown = {row[0]: row[1] for row in common.rows(page, 'Refusal')}
    for name in sorted(set(quoted) | set(shown)):
        tally.check(f'HOST.md: {name}', shown.get(name) == quoted.get(name), quoted.get(name))
    for what, name in (('A step is refused by', 'step_refusal'), ('a re-entry by', 're_entry_refusal'), ('a creation by', 'create_refusal')):
        order = ', '.join(f'R{number}' for number in read_by(r'⇒ (\d) ∣', clauses(paper, name), name))
        tally.check(f'HOST.md: {what} {order}', re.search(rf'{what} {order}(?! *,? R)', page))
    answers = common.read(MODEL + 'Answers.antt')
    for head, name, kind in (('H', 'handover_number', 'Handover'), ('F', 'finish_number', 'Finish')):
        known = {number: case for case, number in read_by(rf'^{name} {kind}\.(\w+) = (\d+)$', answers, name)}
        shown = {row[0]: common.phrases(row[1])[0] for row in common.rows(page, head)}
        tally.check(f'HOST.md: the numbers of {kind}', shown == known, known)


# ---------------------------------------------------------------- the trace

def cases(text, name):
    """{number: the last word of the value} of a table on `a`, `b` or `n`."""
    rows = re.findall(r'^ +[abn] is (\d+) ⇒ (.*?) ∣$', clauses(text, name), re.M)
    return {int(number): re.findall(r'(?:\w+\.)*(\w+)\)*$', re.sub(r' \(record .*\)', '', row).rstrip(')'))[0] for number, row in rows}


def codes(text):
    """{code: (its name, the cases of a)} by the definition."""
    out = {}
    for code, value in read_by(r'^ +e\.code is (\d+) ⇒ (.*) ∣$', text, 'the codes'):
        table = value.split(' ')[0]
        held = re.search(r'Outcome\.(\w+)', value) or re.search(r'(?:Outcome|Call)\.(?!Outcome)(\w+)', clauses(text, table))
        numbered = re.search(r'with \((codes\.)?(\w+) a\)', clauses(text, table)) if table not in ('bare', 'accept', 'message', 're_entry') else None
        named = cases(common.read('crates/model/specs/Codes.antt') if numbered.group(1) else text, numbered.group(2)) if numbered else {}
        out[code] = ('Message' if table == 'message' else held.group(1), named)
    return out


def check_codes(tally, page):
    text = common.read('crates/events/specs/Events.antt')
    known, table = codes(text), {row[0]: row for row in common.rows(page, 'Code')}
    tally.check('HOST.md: the codes', list(table) == list(known), list(known))
    for code, (name, named) in known.items():
        row = table.get(code, ['', '', '', ''])
        shown = {int(number): case for number, case in re.findall(r'(\d+) `(\w+)`', row[2])}
        tally.check(f'HOST.md: code {code} is {name}', common.phrases(row[1]) == [name], row[1])
        tally.check(f'HOST.md: a of code {code}', shown == named, named)
    paper = common.read(MODEL + 'Paper.antt')
    classes = {number: name for name, number in re.findall(r'^class \(?Message\.(\w+)(?: \w+\))? = (\d+)$', paper, re.M)}
    shown = {row[0]: common.phrases(row[1])[0] for row in common.rows(page, 'Class')}
    tally.check('HOST.md: the classes', shown == classes, classes)
    header = common.read('oracle/src/protocol_layer/message/header.rs')
    for name, kind, number in re.findall(r'^\| \d \| `(\w+)` \|.*\| (data|extended) message (\d+) \|$', page, re.M):
        types = header.split(f'impl From<u8> for {kind.capitalize()}MessageType')[1].split('\n}\n')[0].replace('_', '')
        tally.check(f'HOST.md: {name} is {kind} message {number}', f'0b{int(number):05b} => Self::{name},' in types)
    kinds = {number - 1: name for number, name in cases(text, 'payload').items() if number}
    sentence = re.search(r'Kinds of a request:([^.]*)\.', page)
    tally.check('HOST.md: the kinds', {int(k): v for k, v in re.findall(r'(\d) `(\w+)`', sentence.group(1))} == kinds, kinds)


def taken(page):
    """A test by the page's two tables: whether an event is good."""
    first = {int(row[0]): row for row in common.rows(page, 'Code')}
    second = {int(row[0]): row for row in common.rows(page, 'Class')}

    def inside(cell, value):
        return value == 0 if not cell else True if 'any' in cell or not numbers(cell) else value in of_cell(re.sub(r'^[^\d]*', '', cell))

    def is_taken(event):
        code, a, b, one, two = event
        if code != 5:
            return code in first and inside(first[code][2], a) and inside(first[code][3], b) and one == two == 0
        if a not in second:
            return False
        _, _, kinds, word, other, _ = second[a]
        allowed = [0, *range(1, 7)] if '1 to 6' in kinds else of_cell(re.sub(r'^[^\d]*', '', kinds)) if kinds else [0]
        if b not in allowed or 'bad payload' in kinds and b == 0 and (one or two):
            return False
        wide = 'word' in word or 'object' in word
        return (one == 0 if not word else wide or one in of_cell(re.sub(r'^[^\d]*', '', word))) and (two == 0 or bool(other) and b == 6)
    return is_taken


def check_bytes(tally, page):
    """Which events are good, by the page and by the table that tests/malformed holds to the programs: every code and a, every class and b."""
    words = [(0, 0), (1, 0), (255, 0), (256, 0), (2 ** 32 - 1, 0), (1, 1), (0, 1)]
    made = [(code, a, b, *word) for code, a, b, word in itertools.product([*range(14), 255], range(256), (0, 1, 65535), words[:2]) if code != 5]
    made += [(5, a, b, *word) for a, b, word in itertools.product([*range(10), 255], [*range(34), 65535], words)]
    is_taken = taken(page)
    wrong = [event for event in made if is_taken(event) != events.is_good(event)]
    tally.check(f'HOST.md: which of {len(made):,} events are good', not wrong, wrong[:5])
    layout = [(int(row[0]), int(row[1])) for row in common.rows(page, 'Offset')]
    places = [sum(size for _, size in layout[:at]) for at in range(len(layout))]
    tally.check('HOST.md: the places of the header', [at for at, _ in layout] == places and layout[-1] == (8, 12), layout)
    tally.check('HOST.md: 4,096 events', f'{8 + 12 * 4096:,} bytes in all' in page and '4,096 at most' in page)


# What the host of tests/host_loop.txt carries out, and what its panel shows: up to Ready, a soft reset that is not answered, a Hard Reset, of which
# one more would remain, and up to Ready again.
CARRIED_OUT = [3, 4, 5, 7, 8, 9, 8, 11, 8, 17, '+1', 13, 2, 14, 15, 14, 3, 4, 5, 7, 8, 9, 8, 11]


# What the host of tests/host_loop.txt needs to print, which a host with a port of its own does not: where to, in each of these calls of the page.
TO_OUTPUT = [('fn run(', 'fn run<W: Write>(output: &mut W, '), ('show(', 'show(output, '), ('carry_out(', 'carry_out(output, '), ('run(new,', 'run(&mut rt.stdout(), new,')]


def check_loop(tally, page):
    """The page's loop, with a host around it, compiles and does what it should, for as many turns as the list above has."""
    code = re.search(r'^```rattle\n(.*?)\n(let .*?)```', page, re.M | re.S)
    loop, creation = code.groups() if code else ('', '')
    turns = sum(isinstance(one, int) for one in CARRIED_OUT) + 2
    counted = loop.replace('    loop {\n', f'    let mut turns = 0;\n    while turns < {turns} {{\n        turns += 1;\n', 1)
    tally.check('HOST.md: the loop prints nowhere else', all((loop + creation).count(call) == 1 for call, _ in TO_OUTPUT))
    for call, made in TO_OUTPUT:
        counted, creation = counted.replace(call, made), creation.replace(call, made)
    whole = common.read('tests/host_loop.txt').replace('\n..\n', f'\n{counted}\n', 1).replace('\n    ..\n', f'\n{creation}\n', 1)
    with tempfile.TemporaryDirectory() as room:
        shutil.copytree(os.path.join(common.ROOT, 'crates'), os.path.join(room, 'crates'), ignore=shutil.ignore_patterns('out', 'must-fail', 'proofs'))
        os.makedirs(os.path.join(room, 'crates', 'host', 'src'))
        made = {'crates.txt': common.read('crates.txt') + '\nhost: counters request model policy_engine bay console\n', 'crates/host/src/main.rt': whole}
        for name, text in made.items():
            with open(os.path.join(room, name), 'w', encoding='utf-8') as file:
                file.write(text)
        ran = subprocess.run(['rt', 'try'], cwd=os.path.join(room, 'crates', 'host'), capture_output=True, text=True, timeout=600, check=False)
    wanted = ''.join(f'{one:>02}\n' for one in CARRIED_OUT)
    tally.check('HOST.md: the loop runs', (ran.returncode, ran.stdout) == (0, wanted), (ran.stdout + ran.stderr)[:600])


def check(tally, page, command):
    """All of its tables; a part that cannot be read is a failed check."""
    parts = [(check_actions, ()), (check_timers, ()), (check_fitting, ()), (check_targets, (command,)), (check_errors, ()),
             (check_error_numbers, ()), (check_refusals, ()), (check_codes, ()), (check_bytes, ())]
    for part, more in parts:
        try:
            part(tally, page, *more)
        except (Unread, AttributeError, IndexError, KeyError, ValueError) as fault:
            tally.check(f'HOST.md: {part.__name__}', False, f'{type(fault).__name__}: {fault}')

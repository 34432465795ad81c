"""The tables of flows, crates/definition/specs/FlowsOf*.antt, read as text. What their words stand for is said here by document 01's numbers."""
import os
import re
from collections import namedtuple

import common

TABLES = ('FlowsOfMessages', 'FlowsOfSourcePort', 'FlowsOfSwaps', 'FlowsOfReEntry', 'FlowsOfVconn')
# Shown is a line. An action is number, argument and the request that it carries; a request is kind and two words; a count stands with its limit; a mode, a
# data role and a setting are 0 or 1; a call is the five fields of its event.
Shown = namedtuple('Shown', 'answer contract hard caps actions')
Start = namedtuple('Start', 'place request mode contract hard caps dual vconn created role setting')
Settings = namedtuple('Settings', 'dual swapped vconn setting hard caps')
Flow = namedtuple('Flow', 'name table text hypotheses start first steps')


def refused(number):
    return Shown(f'R{number}', None, None, None, ())


def waiting(contract, hard, caps, *actions):
    return Shown('W', contract, hard, caps, actions)


def ending(letter):
    return lambda number, contract, hard, caps: Shown(f'{letter}.{number}', contract, hard, caps, ())


def in_ready(mode, contract, hard, caps):
    """Document 01: "argument 1 if a PPS contract, plus 2 in EPR"."""
    letter, request = contract
    return waiting(contract, hard, caps, (11, (letter == 'E' and request[0] == 2) + 2 * mode, None))


def kind(number):
    return lambda word, second=0: (number, word, second)


def message(cls):
    return lambda request: (5, cls, request[0] + 1, *request[1:])


def event(code):
    return lambda a, b=0: (code, a, b, 0, 0)


def starting(place):
    return lambda *rest: Start(place, None, *rest)


def holding(place):
    return lambda request, *rest: Start(place, request, *rest)


def numbered(prefix, names, first=0):
    return {f'{prefix}.{name}': number for number, name in enumerate(names.split(), first)}


D, I, T, N = (('D', None), ('I', None), ('T', None), ('N', None))
DONE, ACCEPT = (1, 0, 0, 0, 0), (7, 0, 0, 0, 0)
CONSTANTS = {
    'true': True, 'false': False, 'D': D, 'I': I, 'T': T, 'N': N, 'nothing': (0, 0), 'Mode.Spr': 0, 'Mode.Epr': 1,
    'done': DONE, 'dpm_failed': (3, 0, 0, 0, 0), 'no_safe': (4, 0, 0, 0, 0), 'bad_request': (5, 0, 0, 0, 0), 'bad_epr_request': (5, 1, 0, 0, 0),
    'bad_epr_mode': (5, 2, 0, 0, 0), 'bad_extended': (5, 4, 0, 0, 0), 'other': (5, 5, 0, 0, 0), 'accept': ACCEPT, 'reject': (7, 1, 0, 0, 0),
    'wait': (7, 2, 0, 0, 0), 'no': (8, 0, 0, 0, 0), 'yes': (8, 1, 0, 0, 0),
    **numbered('Event', 'None UpdatedSourceCapabilities RequestSinkCapabilities RequestSourceCapabilities RequestEprSourceCapabilities ExitEprMode '
                        'RequestVconnSwap RequestDataRoleSwap RequestPowerRoleSwap'),
    **numbered('Timeout', 'Pps KeepAlive FiveSeconds', 1),
    **numbered('DataRole', 'Ufp Dfp'),
    **numbered('Setting', 'Crate Standard'),
    # What a look-up found: nothing is 0, and a kind the number behind it.
    'None': 0, **numbered('Kind', 'FixedSupply VariableSupply Battery Pps Avs', 1),
}
BUILDERS = {
    'E': lambda request: ('E', request), 'Some': lambda kind: kind,
    'fixed': kind(0), 'battery': kind(1), 'programmable': kind(2), 'adjustable': kind(3), 'unknown': kind(4), 'epr': kind(5),
    'zero': lambda count: (0, count[1]), 'more': lambda count: (count[0] + 1, count[1]), 'full': lambda count: (count[1], count[1]),
    'Below': lambda count: count[0] < count[1],
    'failed': event(2), 'lookup': event(6), 'event': event(9), 'timeout': event(10), 're_entry': event(11),
    'request': message(0), 'epr_request': message(1),
    'epr_mode': lambda word: (5, 2, 1, word, 0), 'control': lambda number: (5, 3, number, 0, 0), 'extended': lambda number: (5, 4, 1, number, 0),
    'sink_capabilities': lambda good: (5, 6, int(good), 0, 0), 'epr_sink_capabilities': lambda good: (5, 7, int(good), 0, 0),
    'W': waiting, 'WW': waiting, 'S': ending('S'), 'F': ending('F'), 'H': ending('H'), 'R': refused, 'in_ready': in_ready,
    'ready': starting('ready'), 'stopped': starting('stopped'), 'handed_over': starting('handed over'),
    'evaluating': holding('evaluating'), 'looking_up': holding('looking up'), 'standing_at': holding('elsewhere'), 'settings': Settings,
}
INFIX = {
    '≡': lambda left, right: left == right, 'is': lambda left, right: left == right, '/': lambda left, right: left // right,
    '·': lambda number, argument: (number, argument, None), 'on': lambda number, request: (number, 0, request),
}


# ---------------------------------------------------------------- reading the tables

def tree(tokens):
    """What stands up to the bracket that closes, or to the end, as nested lists."""
    found = []
    for token in tokens:
        if token == ')':
            break
        found.append(tree(tokens) if token == '(' else token)
    return found


def split(words, at):
    """The parts between the words that are `at`."""
    parts = [[]]
    for word in words:
        if word == at:
            parts.append([])
        else:
            parts[-1].append(word)
    return parts


def value(words, chosen):
    """What a term of the tables stands for, with the values chosen for what is left open."""
    if isinstance(words, str):
        if words.isdecimal():
            return int(words)
        return chosen[words] if words in chosen else CONSTANTS[words]
    for sign, made in INFIX.items():
        if sign in words:
            left, right = split(words, sign)
            return made(value(left, chosen), value(right, chosen))
    if len(words) == 1:
        return value(words[0], chosen)
    if words[0] == 'Place.Waiting':
        return words
    return BUILDERS[words[0]](*(value(word, chosen) for word in words[1:]))


def flow_of(name, table, text):
    """The flow that a statement says; None where it says something else."""
    *hypotheses, (says, *terms) = split(tree(iter(re.findall(r'[()]|[^\s()]+', text))), '→')
    if says not in ('Follows', 'Begins'):
        return None
    start, *first, steps = terms
    steps = [split(step, '⟶') for step in split(steps, '⨾')] if steps != 'end' else [[['end']]]
    assert steps.pop() == [['end']] and all(len(step) == 2 for step in steps), name
    return Flow(name, table, text, hypotheses, start, first, steps)


def statements():
    """(section/name, table, text) of all that the tables state, by names with dashes. A section is a record: ReEntryFlows is re-entry."""
    for table in TABLES:
        with open(os.path.join(common.ROOT, 'crates', 'definition', 'specs', table + '.antt'), encoding='utf-8') as file:
            text = re.sub(r'--.*', '', file.read())
        for record, body in re.findall(r'^pub record (\w+)Flows [^\n]* where\n(.*?)(?=^pub |\Z)', text, re.M | re.S):
            section = re.sub(r'\B([A-Z])', r'-\1', record).lower()
            for name, stated in re.findall(r'^  pub (\S+) :(.*?)(?=^  pub |\Z)', body, re.M | re.S):
                yield f"{section}/{name.replace('_', '-')}", table, stated

#!/usr/bin/env python3
"""mktrace_test: tools/mktrace there and back over every event, what its words mean, and its errors.

The last line is 'N passed, M failed'."""
import itertools
import os
import random
import signal
import subprocess
import sys
import tempfile
import time

sys.dont_write_bytecode = True
import common
import events

HEADER = b'PES\x01\x00\x05\x02\x32'
CREATE = 'create dual vconn 2 50\n'

# Modes of a re-entry: the named ones, every edge of a byte, and one in 31 of the rest, which are numbers like any other.
MODES = sorted({*range(300), *range(300, 65536, 31), 65279, 65280, 65534, 65535})

# What each name stands for, from document 01 and the Rust: there and back alone would not find two names exchanged.
CONTROL = ('GoodCRC 1 GotoMin 2 Accept 3 Reject 4 Ping 5 PsRdy 6 GetSourceCap 7 GetSinkCap 8 DrSwap 9 PrSwap 10 VconnSwap 11 Wait 12 '
           'SoftReset 13 DataReset 14 DataResetComplete 15 NotSupported 16 GetSourceCapExtended 17 GetStatus 18 FrSwap 19 '
           'GetPpsStatus 20 GetCountryCodes 21 GetSinkCapExtended 22 GetSourceInfo 23 GetRevision 24').split()
EXTENDED = 'EprGetSourceCap 1 EprGetSinkCap 2 EprKeepAlive 3 EprKeepAliveAck 4'.split()
EVENT = ('None 0 UpdatedSourceCapabilities 1 RequestSinkCapabilities 2 RequestSourceCapabilities 3 RequestEprSourceCapabilities 4 '
         'ExitEprMode 5 RequestVconnSwap 6 RequestDataRoleSwap 7 RequestPowerRoleSwap 8').split()
TARGET = ('Discovery 0 SendCapabilities 1 Ready 2 HardReset 3 HardResetReceived 4 SendSoftReset 5 SoftReset 6 SendNotSupported 7 '
          'ErrorRecovery 8 Startup 9 VconnSwap 10 PrSwapToSinkStartup 11').split()
MEANINGS = {
    'done': (1, 0, 0, 0, 0), 'failed HardReset': (2, 0, 0, 0, 0), 'failed ReceiveTimeout': (2, 1, 0, 0, 0),
    'failed UnexpectedMessage': (2, 2, 0, 0, 0), 'failed 255': (2, 255, 0, 0, 0), 'dpm-failed': (3, 0, 0, 0, 0),
    'no-safe': (4, 0, 0, 0, 0),
    'request bad': (5, 0, 0, 0, 0), 'request fixed 0x1304b12c': (5, 0, 1, 0x1304b12c, 0), 'request battery 0x00000001': (5, 0, 2, 1, 0),
    'request pps 0x00000001': (5, 0, 3, 1, 0), 'request avs 0x00000001': (5, 0, 4, 1, 0),
    'request unknown 0xffffffff': (5, 0, 5, 0xffffffff, 0),
    'request epr 0x00000001 0x80000002': (5, 0, 6, 1, 0x80000002), 'epr-request bad': (5, 1, 0, 0, 0),
    'epr-request avs 0x00000007': (5, 1, 4, 7, 0), 'epr-request epr 0x00000001 0x00000000': (5, 1, 6, 1, 0),
    'epr-mode bad': (5, 2, 0, 0, 0), 'epr-mode enter': (5, 2, 1, 0x01000000, 0), 'epr-mode exit': (5, 2, 1, 0x05000000, 0),
    'epr-mode 0x01000001': (5, 2, 1, 0x01000001, 0), 'control 0': (5, 3, 0, 0, 0), 'control 31': (5, 3, 31, 0, 0),
    'extended-control bad': (5, 4, 0, 0, 0), 'extended-control 255': (5, 4, 1, 255, 0), 'other': (5, 5, 0, 0, 0),
    'sink-capabilities bad': (5, 6, 0, 0, 0), 'sink-capabilities good': (5, 6, 1, 0, 0), 'epr-sink-capabilities bad': (5, 7, 0, 0, 0),
    'epr-sink-capabilities good': (5, 7, 1, 0, 0), 'lookup none': (6, 0, 0, 0, 0), 'lookup fixed': (6, 1, 0, 0, 0),
    'lookup variable': (6, 2, 0, 0, 0), 'lookup battery': (6, 3, 0, 0, 0), 'lookup pps': (6, 4, 0, 0, 0), 'lookup avs': (6, 5, 0, 0, 0),
    'accept': (7, 0, 0, 0, 0), 'reject': (7, 1, 0, 0, 0), 'wait': (7, 2, 0, 0, 0), 'no': (8, 0, 0, 0, 0), 'yes': (8, 1, 0, 0, 0),
    'timeout pps': (10, 1, 0, 0, 0), 'timeout keep-alive': (10, 2, 0, 0, 0), 'timeout five-seconds': (10, 3, 0, 0, 0),
    'reenter Ready spr': (11, 2, 1, 0, 0), 'reenter Ready epr': (11, 2, 2, 0, 0), 'reenter 255 65535': (11, 255, 65535, 0, 0),
}
MEANINGS.update({f'control {name}': (5, 3, int(n), 0, 0) for name, n in zip(CONTROL[::2], CONTROL[1::2])})
MEANINGS.update({f'extended-control {name}': (5, 4, 1, int(n), 0) for name, n in zip(EXTENDED[::2], EXTENDED[1::2])})
MEANINGS.update({f'event {name}': (9, int(n), 0, 0, 0) for name, n in zip(EVENT[::2], EVENT[1::2])})
MEANINGS.update({f'reenter {name} keep': (11, int(n), 0, 0, 0) for name, n in zip(TARGET[::2], TARGET[1::2])})

# Other spellings, and the one that mktrace --text gives.
SPELLINGS = {
    'failed 0': 'failed HardReset', 'failed 0x02': 'failed UnexpectedMessage', 'control 13': 'control SoftReset',
    'request 0 7': 'request fixed 0x00000007',
    'request  pps\t0x0A   # a comment': 'request pps 0x0000000a', 'epr-mode 0x1000000': 'epr-mode enter',
    'extended-control 3': 'extended-control EprKeepAlive', 'event 8': 'event RequestPowerRoleSwap', 'lookup 5': 'lookup avs',
    'timeout 1': 'timeout pps', 'reenter 11 0': 'reenter PrSwapToSinkStartup keep', 'reenter 2 2': 'reenter Ready epr',
}

# A text that is refused, the line to be named, and a part of what is said.
FAULTS = [
    ('', 1, 'ends'), ('# nothing\n\n', 3, 'ends'), ('done\n', 1, "expected 'create' or 'header'"),
    ('raw 00\n', 1, "expected 'create' or 'header'"),
    (CREATE + 'create 2 50\n', 2, 'only in the first line'), ('\n' + CREATE + 'header 00\n', 3, 'only in the first line'),
    ('create\n', 1, 'expected: create'), ('create 2\n', 1, 'expected: create'), ('create 2 50 50\n', 1, 'expected: create'),
    ('create vcon dual 2 50\n', 1, 'expected: create'), ('create dual dual 2 50\n', 1, 'expected: create'),
    ('create 256 50\n', 1, '0..255'),
    ('create 2 -1\n', 1, "'-1' is no number"), ('create two 50\n', 1, "'two' is no number"), ('header 123\n', 1, 'whole bytes'),
    ('header zz\n', 1, 'whole bytes'),
    *[(CREATE + '\n# a comment\n' + line + '\n', 4, said) for line, said in (
        ('dnoe', "unknown word 'dnoe'"), ('Done', "unknown word 'Done'"), ('done 1', 'expected: done'), ('accept now', 'expected: accept'),
        ('failed', 'expected: failed'), ('failed 256', '0..255'), ('failed Softly', "'Softly'"), ('failed 1 2', 'expected: failed'),
        ('request', 'expected: request'), ('request fixed', 'expected: request'), ('request fixed 1 2', 'expected: request'),
        ('request epr 1', 'expected: request'), ('request epr 1 2 3', 'expected: request'),
        ('request solar 1', "'solar' is no number and no name that stands here: fixed battery pps avs unknown epr, or a number from 0 to 5"),
        ('request 6 1', '0..5'), ('request fixed 0x100000000', '0..4294967295'), ('request fixed 0xg', "'0xg'"),
        ('request fixed 0X1', "'0X1'"), ('request bad 1', "'bad'"),
        ('epr-request', 'expected: epr-request'), ('epr-mode', 'expected: epr-mode'), ('epr-mode leave', "'leave'"),
        ('control', 'expected: control'),
        ('control 32', '0..31'), ('control softreset', "'softreset'"), ('control bad', "'bad'"), ('extended-control 256', '0..255'),
        ('other 1', 'expected: other'), ('sink-capabilities', 'expected: sink-capabilities'),
        ('sink-capabilities 1', 'expected: sink-capabilities'),
        ('lookup 6', '0..5'), ('lookup epr', "'epr'"), ('event 9', '0..8'), ('event', 'expected: event'), ('timeout 0', '1..3'),
        ('timeout 4', '1..3'), ('reenter Ready', 'expected: reenter'), ('reenter 256 keep', '0..255'), ('reenter Ready 65536', '0..65535'),
        ('reenter Ruddy keep', "'Ruddy'"), ('raw', 'expected: raw'), ('raw 012', 'whole bytes'), ('raw 0x12', 'whole bytes'))],
]


def there_and_back(tool, trace):
    return tool.trace_of(tool.text_of(trace)) == trace


def fault_of(tool, text):
    try:
        tool.trace_of(text)
    except tool.Fault as fault:
        return str(fault)
    return 'none'


def check_events(tally, tool):
    good = events.good_events()
    for name, made, is_raw in (('good', good, False), ('bad', events.bad_events(), True)):
        lines = [(event, tool.line_of(events.pack(event), False)) for event in made]
        wrong = [event for event, line in lines if line.startswith('raw ') != is_raw or tool.bytes_of(line, False) != events.pack(event)]
        tally.check(f'{name} events, {len(made)}, there and back', not wrong, wrong[:1])
        if not is_raw:
            tally.check('no two good events have one line', len({line for _, line in lines}) == len(set(good)))
    wrong = []
    for mode in MODES:
        event = 11, mode & 255, mode, 0, 0
        line = f'reenter {TARGET[2 * event[1]] if event[1] < 12 else event[1]} {("keep", "spr", "epr")[mode] if mode < 3 else mode}'
        if tool.line_of(events.pack(event), False) != line or tool.bytes_of(line, False) != events.pack(event):
            wrong.append(event)
    tally.check(f'{len(MODES)} modes of a re-entry', len(MODES) > 2000 and not wrong, wrong[:1])


def check_traces(tally, tool):
    for flags in range(256):
        made = HEADER[:5] + bytes([flags, 255, 0])
        tally.check(f'flags {flags}', there_and_back(tool, made) and tool.text_of(made).startswith('create' if flags < 16 else 'header'))
    for place in range(5):
        made = HEADER[:place] + bytes([HEADER[place] ^ 1]) + HEADER[place + 1:] + events.pack((1, 0, 0, 0, 0))
        tally.check(f'bad header at {place}', there_and_back(tool, made) and tool.text_of(made) == f'header {made[:8].hex()}\ndone\n')
    whole = HEADER + b''.join(map(events.pack, events.good_events() + events.bad_events()))
    tally.check('more than 4,096 events', len(whole) > 49160 and there_and_back(tool, whole))
    tally.check('every length', all(there_and_back(tool, whole[:size]) for size in range(201)))
    rng = random.Random(1)
    tally.check('random bytes', all(there_and_back(tool, rng.randbytes(size)) for size in range(201)))


def check_words(tally, tool):
    for line, event in MEANINGS.items():
        made = events.pack(event)
        tally.check(line, tool.trace_of(CREATE + line) == HEADER + made and tool.line_of(made, False) == line)
    for line, meant in SPELLINGS.items():
        tally.check(line, tool.text_of(tool.trace_of(CREATE + line)) == CREATE + meant + '\n')
    layout = '#\n \n' + CREATE + '\r\n  done#x\r\n\n# done\n'
    tally.check('comments, blank lines, line ends', tool.trace_of(layout) == HEADER + events.pack((1, 0, 0, 0, 0)))
    for text, place, said in FAULTS:
        found = fault_of(tool, text)
        tally.check(f'fault in {text!r}', found.startswith(f'line {place}: ') and said in found, found)


def mktrace(data, *args):
    done = subprocess.run([common.MKTRACE, *args], input=data, capture_output=True, timeout=common.SECONDS, check=False)
    return done.returncode, done.stdout, done.stderr.decode()


def check_ended(tally, text):
    """Ctrl-C ends it quietly; a reader that goes away, and a full disk, are said in one line."""
    with subprocess.Popen([common.MKTRACE], stdin=subprocess.PIPE, stdout=subprocess.PIPE, stderr=subprocess.PIPE) as child:
        child.stdin.write(text)
        child.stdin.flush()
        time.sleep(1)  # until it reads
        child.send_signal(signal.SIGINT)
        printed, said = child.communicate(timeout=common.SECONDS)
    tally.check('Ctrl-C ends it quietly', (child.returncode, printed, said) == (130, b'', b''), (child.returncode, said))
    with open('/dev/full', 'wb') as full:
        done = subprocess.run([common.MKTRACE], input=text, stdout=full, stderr=subprocess.PIPE, timeout=common.SECONDS, check=False)
    tally.check('a failed write is said once', done.returncode == 1 and done.stderr.count(b'\n') == 1, done.stderr)


def check_command(tally, _):
    trace = HEADER + events.pack((1, 0, 0, 0, 0))
    text = CREATE.encode() + b'done\n'
    tally.check('text to trace', mktrace(text) == (0, trace, ''))
    tally.check('trace to text', mktrace(trace, '--text') == (0, text, ''))
    status, printed, said = mktrace(text + b'dnoe\n')
    tally.check('an error', (status, printed) == (1, b'') and said.startswith("mktrace: line 3: unknown word 'dnoe'; ") and ' done ' in said)
    for flags in itertools.permutations(('dual', 'swapped', 'vconn', 'standard')):
        tally.check(f'flags in any order: {flags}', mktrace(f'create {" ".join(flags)} 2 50'.encode())[:2] == (0, HEADER[:5] + bytes([15, 2, 50])))
    for encoding in ('utf-8-sig', 'utf-16'):
        status, printed, said = mktrace(text.decode().encode(encoding))
        tally.check(f'a byte order mark: {encoding}', (status, printed) == (1, b'') and 'line 1: the file begins with a byte order mark' in said, said)
    check_ended(tally, text)
    tally.check('bytes that are no text', mktrace(text + b'\xff\n')[:2] == (1, b''))
    status, printed, _ = mktrace(b'', '--help')
    tally.check('--help', status == 0 and b'epr-request' in printed)
    with tempfile.TemporaryDirectory() as place:
        source, out = os.path.join(place, 'in'), os.path.join(place, 'out')
        status, printed, said = mktrace(text, source)
        tally.check('no such file', (status, printed) == (1, b'') and source in said)
        tally.check('an error writes no file', mktrace(b'dnoe', '-o', out)[0] == 1 and not os.path.exists(out))
        with open(source, 'wb') as file:
            file.write(text)
        tally.check('from file to file', mktrace(b'', source, '-o', out) == (0, b'', ''))
        with open(out, 'rb') as file:
            tally.check('the file', file.read() == trace)


def main():
    tally, tool = common.Tally(), common.mktrace()
    for group in (check_events, check_traces, check_words, check_command):
        try:
            group(tally, tool)
        except tool.Fault as fault:
            tally.check(group.__name__, False, f'a line that mktrace itself wrote, or should take: {fault}')
    return tally.end()


if __name__ == '__main__':
    sys.exit(main())

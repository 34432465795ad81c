"""The events of document 01 as a table, the good ones and the bad ones made from it."""
import itertools
import struct

WORD = (0, 0xffffffff)
# code, a, b, first word, second word: a number, or the lowest and the highest.
ROWS = [
    (1, 0, 0, 0, 0),                        # Done
    (2, (0, 255), 0, 0, 0),                 # Failed
    (3, 0, 0, 0, 0),                        # DpmFailed
    (4, 0, 0, 0, 0),                        # NoSafe
    (5, (0, 1), 0, 0, 0),                   # Request and EprRequest, bad payload
    (5, (0, 1), (1, 5), WORD, 0),           # kinds 0 to 4
    (5, (0, 1), 6, WORD, WORD),             # kind 5
    (5, 2, 0, 0, 0),                        # EprMode, bad payload
    (5, 2, 1, WORD, 0),
    (5, 3, (0, 31), 0, 0),                  # control
    (5, 4, 0, 0, 0),                        # extended control, bad payload
    (5, 4, 1, (0, 255), 0),
    (5, 5, 0, 0, 0),                        # others
    (5, (6, 7), (0, 1), 0, 0),              # sink capabilities
    (6, (0, 5), 0, 0, 0),                   # Lookup
    (7, (0, 2), 0, 0, 0),                   # evaluation
    (8, (0, 1), 0, 0, 0),                   # no, yes
    (9, (0, 8), 0, 0, 0),                   # Event
    (10, (1, 3), 0, 0, 0),                  # timeout
    (11, (0, 255), (0, 65535), 0, 0),       # re-entry
]
# Values on either side of every limit above, for each of the five fields.
EDGES = [(0, 12, 13, 128, 255), (0, 1, 2, 3, 4, 5, 6, 7, 8, 9, 128, 255), (0, 1, 2, 6, 7, 31, 32, 255, 256, 257, 65535),
         (0, 1, 255, 256, 0x01000000, 0x80000000, 0xffffffff), (0, 1, 256, 0x01000000, 0x80000000, 0xffffffff)]


def pack(event):
    return struct.pack('<BBHII', *event)


def bounds(field):
    return field if isinstance(field, tuple) else (field, field)


def is_good(event):
    return any(all(low <= value <= high for value, (low, high) in zip(event, map(bounds, row))) for row in ROWS)


def values(field, edges):
    """Every value where they are few, otherwise the edges within."""
    low, high = bounds(field)
    return range(low, high + 1) if high - low < 256 else [value for value in edges if low <= value <= high]


def good_events():
    return [event for row in ROWS for event in itertools.product(*map(values, row, EDGES))]


def bad_events():
    """Every bad event that differs in one field from the lowest or the highest event of a row."""
    made = {}
    for row in ROWS:
        for base in zip(*map(bounds, row)):
            for place, edges in enumerate(EDGES):
                for value in edges:
                    made[base[:place] + (value,) + base[place + 1:]] = None
    return [event for event in made if not is_good(event)]


def header_hint(trace):
    """Document 01's order: short, mark, version, flags above 15, over 49,160 bytes."""
    if len(trace) < 8:
        return f'not a trace: {len(trace)} bytes, and a header has 8'
    if trace[:3] != b'PES':
        return f'not a trace: begins with the bytes {trace[:3].hex(" ")}, and a trace with 50 45 53, PES'
    version, flags = struct.unpack('<HB', trace[3:6])
    if version != 1:
        return f'version {version}, and not 1'
    return f'flags {flags}, and not 0 to 15' if flags > 15 else 'over 4,096 events: more than 49,160 bytes'


def event_hint(entry, data):
    """The first field that no row has beside the fields before it, and the values that rows have there."""
    if len(data) != 12:
        return f'event {entry} has {len(data)} bytes, and not 12'
    event, rows = struct.unpack('<BBHII', data), [[*map(bounds, row)] for row in ROWS]
    for place, name in enumerate(('code', 'a', 'b', 'the first word', 'the second word')):
        fit = [row for row in rows if row[place][0] <= event[place] <= row[place][1]]
        if not fit and not place:
            return f'event {entry} has an unknown code {event[0]}'
        if not fit:
            least, most = min(row[place][0] for row in rows), max(row[place][1] for row in rows)
            return f'event {entry} of code {event[0]}: {name} is {event[place]}, and not {least}' + (f' to {most}' if least < most else '')
        rows = fit
    return 'a good event'


def hint(trace, listed):
    """What standard error says of a trace with this listing: where it ends with R8 what is wrong there, else nothing."""
    entry, _, answer = listed.rstrip('\n').rpartition('\n')[2].partition(' ')
    if answer != 'R8':
        return b''
    start = 12 * int(entry) - 4
    return f'R8: {event_hint(entry, trace[start:start + 12]) if int(entry) else header_hint(trace)}\n'.encode()

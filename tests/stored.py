"""The stored cases of each operation, the stored feeds of `wear`, a stored record in cells, and the places of a stored ledger; for tests/vectors and
tests/outside. An independent program made them from document 01 as 02 amends it: those of blocks by §1 and §2, the feeds by §4 too, those of ledgers
and pages by §5 too. The rated count of a load is for a later request."""
import json
import os
import sys

TESTS = os.path.dirname(os.path.abspath(__file__))

CASES = {'read': 400, 'step': 400, 'entry': 300, 'rewrite': 400, 'write': 400, 'post': 100, 'load': 120, 'store': 120, 'old_to_new': 150,
         'new_to_old': 150}
FEEDS = ['feed1', 'feed2', 'feed3']

# The operations that turn a page into the other form, each with its word in a line.
TURNS = {'old_to_new': 'to_new', 'new_to_old': 'to_old'}

# The cells of a record in wear.h's order, behind category and marks: an item, and its value's name in the stored cases.
CELLS = [
    ('010', 'sac'), ('010', 'sic'), ('000', 'type'), ('65/015', 'service'), ('23/015', 'sid'), ('23/015', 'styp'), ('time', 'time'),
    ('020', 'batch'), ('040', 'nogo'), ('040', 'ovl'), ('040', 'tsv'), ('040', 'pss'), ('040', 'sttn'), ('050', 'report'),
    ('100', 'nogo'), ('100', 'odp'), ('100', 'oxt'), ('100', 'msc'), ('100', 'tsv'), ('100', 'spo'), ('100', 'rn'), ('100', 'ext'),
    ('100', 'gssp'), ('101', 'rp'), ('101', 'sc'), ('101', 'ext'), ('101', 'ssrp'), ('200', 'range'), ('110', 'stat'),
    ('entries', 'first'), ('entries', 'n'), ('RE', 'first'), ('RE', 'n'), ('SP', 'first'), ('SP', 'n'),
]

# Item 110 has no extension, and so no cell for one.
NO_EXTENSION = ('110', 'ext')

# The item at each field of a category (document 01, "Block and field specification").
FIELDS = {
    23: {1: '010', 2: '000', 3: '23/015', 4: 'time', 5: '100', 6: '101', 7: '200', 8: '110', 9: 'entries', 13: 'RE', 14: 'SP'},
    65: {1: '010', 2: '000', 3: '65/015', 4: 'time', 5: '020', 6: '040', 7: '050', 13: 'RE', 14: 'SP'},
    242: {1: '010', 2: 'time', 3: 'entries', 6: 'SP', 7: 'RE'},
}

# The room of an output that is large enough for any block.
ENOUGH = 65540

# A place without a row: key, life count, reading, and no known time. The latest time, in 1/128 s.
EMPTY = (0, 0, 0, None)
LATEST = 11059327


def must(holds, text):
    """Ends the program that asks, with its name and a sentence, where something does not hold."""
    if not holds:
        sys.exit('%s: %s' % (os.path.basename(sys.argv[0]), text))


def cases(op):
    """The stored cases of an operation."""
    with open(os.path.join(TESTS, 'vectors', 'stored', op + '.jsonl')) as f:
        found = [json.loads(line) for line in f]
    must(len(found) == CASES[op], '%s: %d cases are stored, not %d' % (op, len(found), CASES[op]))
    must(all(case['op'] == op for case in found), 'a case of %s.jsonl is of another operation' % op)
    return found


def feeds():
    """Of each stored feed the octets, and of what `wear` prints for it the rows, each with its key in hex, life count and reading, and the totals."""
    folder = os.path.join(TESTS, 'wear', 'stored')
    must(sorted(name for name in os.listdir(folder) if '.' not in name) == FEEDS, 'other feeds are stored than %s' % ' '.join(FEEDS))
    for name in FEEDS:
        path = os.path.join(folder, name)
        with open(path, 'rb') as f:
            octets = f.read()
        with open(path + '.wear') as f:
            _, *rows, totals = [line.split() for line in f]
        yield octets, [(key, int(life), int(reading)) for key, life, reading in rows], [int(total) for total in totals[1::2]]


def room_of(case):
    return ENOUGH if case['room'] is None else case['room']


def places_of(ledger):
    """The places that are given, as key, life count, reading and time, None where none is known; the others are empty."""
    return [(((sac * 256 + sic) * 256 + octet) * 256 + typ, life, reading, time) for sac, sic, octet, typ, life, reading, time in ledger['places']]


def items_of(record):
    """The item of each field that has values. A category that is not read has the items of one that is, by the names of the values."""
    given = {int(field): named for field, named in record['fields'].items() if named}
    for items in [FIELDS[record['cat']]] if record['cat'] in FIELDS else FIELDS.values():
        if all(field in items and all((items[field], name) in CELLS + [NO_EXTENSION] for name in named) for field, named in given.items()):
            return items
    must(False, 'no cells for %s' % record)


def cells_of(record):
    """Category, marks (bit f - 1 for field f) and all cells of a record, zero where it has nothing; None where item 110 has an extension."""
    items = items_of(record)
    values = {(items[int(field)], name): value for field, named in record['fields'].items() for name, value in named.items()}
    if values.get(NO_EXTENSION, 0):
        return None
    return [record['cat'], sum(1 << int(field) - 1 for field in record['fields'])] + [values.get(cell, 0) for cell in CELLS]

"""lines: the stored cases as lines for the program `vectors`. judge FILE: what it wrote, held to the stored answers, cell by cell."""
import os
import sys

sys.path.insert(0, os.path.join(os.path.dirname(os.path.abspath(__file__)), '..'))
import stored
from stored import must

# A block of the most octets that whole category 23 records of five octets fill: LEN 65,533, 13,106 records. One whose records have a
# second specification octet of zero: LEN 65,535, 10,922 records, and 54,613 octets in normal form.
LARGE = [
    ('read 17FFFD 13106*5002000000', '0 0 65533 13106'),
    ('rewrite 65533 17FFFD 13106*5002000000', '0 65533 1 17FFFD' + '5002000000' * 13106),
    ('rewrite 54613 17FFFF 10922*510002000000', '0 54613 1 17D555' + '5002000000' * 10922),
]

# The octets of a piece of a feed; 0 is all at once.
PIECES = [0, 1, 7, 4096]

# The number that stands for no known time, and a word of an answer that stands for any time or none known.
UNKNOWN = 2 ** 32 - 1
ANY_TIME = 'time'


def numbers(values):
    return ' '.join(str(n) for n in values)


def numbered(place):
    """A place's four numbers."""
    key, life, reading, time = place
    return key, life, reading, UNKNOWN if time is None else time


def place_octets(place):
    return '%08X%016X%08X%08X' % numbered(place)


def ledger_octets(ledger):
    """The row count, and 256 places."""
    places = stored.places_of(ledger)
    must(len(places) <= 256, 'a ledger has 256 places')
    words = ['%016X' % ledger['count']] + [place_octets(place) for place in places]
    if len(places) < 256:
        words.append('%d*%s' % (256 - len(places), place_octets(stored.EMPTY)))
    return ' '.join(words)


def ledger_numbers(number, ledger):
    """Number, row count, and each place that is not empty, with its number from 0."""
    places = [value for i, place in enumerate(stored.places_of(ledger)) if place != stored.EMPTY for value in (i,) + numbered(place)]
    return numbers([number, ledger['count']] + places)


def written(case):
    """Number, length, 1 as the octets behind the length have to stay, and the octets."""
    out = case['out'].upper()
    return ('%d %d 1 %s' % (case['number'], len(out) // 2, out)).rstrip()


def line_and_answer(case):
    if case['op'] == 'post':
        return 'post %d %s %s' % (case['k'], ledger_octets(case['ledger']), case['in']), ledger_numbers(case['number'], case['after'])
    if case['op'] == 'load':
        return 'load ' + case['page'], ledger_numbers(case['number'], case['ledger'])
    if case['op'] == 'store':
        return 'store %d %s' % (stored.room_of(case), ledger_octets(case['ledger'])), written(case)
    if case['op'] in stored.TURNS:
        return '%s %d %s' % (stored.TURNS[case['op']], stored.room_of(case), case['page']), written(case)
    if case['op'] in ('rewrite', 'write'):
        room = stored.room_of(case)
        if case['op'] == 'rewrite':
            return 'rewrite %d %s' % (room, case['in']), written(case)
        return 'write %d %s %s' % (room, numbers(stored.cells_of(case['record'])), case['source']), written(case)
    number, offset, octets = case['number'], case['offset'], case['in']
    if case['op'] == 'read':
        return 'read ' + octets, numbers([number, offset, case['len'], case['count']])
    if case['op'] == 'step':
        return 'step %d %s' % (case['start'], octets), numbers([number, offset, case['next']]) + ' ' + numbers(stored.cells_of(case['record']))
    entry = case['entry']
    names = {0: (), 3: ('type', 'ref', 'count') if 'type' in entry else ('cat', 'main', 'sub')}[len(entry)]
    values = [entry[name] for name in names] if names else [0, 0, 0]
    return 'entry %d %d %s' % (case['start'], case['k'], octets), numbers([number, offset] + values)


def feed_cases():
    """Each feed in pieces of each size: the totals, the row count, and each place; what `wear` prints has no times."""
    for octets, rows, totals in stored.feeds():
        places = [value for i, (key, life, reading) in enumerate(rows) for value in (i, int(key, 16), life, reading, ANY_TIME)]
        for piece in PIECES:
            yield 'feed %d %s' % (piece, octets.hex()), numbers(totals + [len(rows)] + places)


def is_sayable(case):
    """A record with a value that has no cell cannot be handed over; its answer has to be 11."""
    if case['op'] != 'write' or stored.cells_of(case['record']):
        return True
    must(case['number'] == 11 and case['out'] == '', 'a value without a cell gets %d' % case['number'])
    return False


def all_cases():
    """The cases of each operation, with how many of the stored ones are left out, the large blocks, and the feeds."""
    for op, count in stored.CASES.items():
        said = [line_and_answer(case) for case in stored.cases(op) if is_sayable(case)]
        yield op, said, count - len(said)
    yield 'large blocks', LARGE, 0
    yield 'feed', list(feed_cases()), 0


def is_time(word):
    return word.isdecimal() and (int(word) <= stored.LATEST or int(word) == UNKNOWN)


def agrees(wrote, expected):
    """Whether a line is the one expected, word by word."""
    words, asked = wrote.split(' '), expected.split(' ')
    return len(words) == len(asked) and all(is_time(word) if want == ANY_TIME else word == want for word, want in zip(words, asked))


def judge(path):
    with open(path) as f:
        wrote = f.read().split('\n')
    must(wrote.pop() == '', 'the last line that was written has no end')
    groups = list(all_cases())
    asked = sum(len(cases) for _, cases, _ in groups)
    must(len(wrote) == asked, '%d lines were written for %d cases' % (len(wrote), asked))
    at, wrong, told = 0, 0, {}
    for op, cases, left_out in groups:
        differ = 0
        for line, expected in cases:
            # of a feed in pieces of each size the same is expected, and has to be written, times and all
            if not agrees(wrote[at], expected) or told.setdefault(expected, wrote[at]) != wrote[at]:
                differ += 1
                print('%s\n  expected %.400s\n  wrote    %.400s' % (line, expected, wrote[at]))
            at += 1
        note = ' (%d have a value that has no cell)' % left_out if left_out else ''
        print('%s: %d cases, %d differences%s' % (op, len(cases), differ, note))
        wrong += differ
    return 1 if wrong else 0


if sys.argv[1:] == ['lines']:
    for _, cases, _ in all_cases():
        for line, _ in cases:
            print(line)
elif len(sys.argv) == 3 and sys.argv[1] == 'judge':
    sys.exit(judge(sys.argv[2]))
else:
    sys.exit(__doc__)

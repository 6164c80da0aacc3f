"""The stored cases and feeds, and the documents' examples, as lines for the program `compare`.
Octets are in hex, '-' for none, numbers in decimal; the answer comes last, with ?? for an octet that is not known.

read OCTETS            NUMBER OFFSET LEN COUNT
step OCTETS START      NUMBER OFFSET NEXT and the record's cells
entry OCTETS START K   NUMBER OFFSET and the entry's three values
write CELLS SOURCE ROOM   NUMBER OUT
rewrite OCTETS ROOM       NUMBER OUT
to_new PAGE ROOM          NUMBER OUT
to_old PAGE ROOM          NUMBER OUT
post PAGE OCTETS K ROOM   NUMBER OUT
feed PAGE OCTETS MORE ROOM   NUMBER OUT and the seven cells
"""
import os
import sys

sys.path.insert(0, os.path.join(os.path.dirname(os.path.abspath(__file__)), '..'))
import stored

# Document 01, "Worked examples", as 02 §1 and §2 amend them: the octets of a block, the number, and the count of records.
EXAMPLES = [
    ('41000CF40102010700008068', 0, 1), ('41000CF4010201070000806B', 0, 1), ('41000DF5000102010700008068', 0, 1),
    ('41000CF401020107A8BFFF68', 0, 1), ('41000CF401020107A8C00068', 0, 1), ('41000CF401020107A8C07F68', 0, 1),
    ('41000CF401020107A8C08068', 11, 0), ('41000BF001020207000080', 10, 0),
    ('41000CF80102020700008003', 0, 1), ('F2000DE0010200000001170102', 0, 1), ('F2000DE0010200000001170164', 11, 0),
    ('F2000AE0010200000000', 8, 0), ('F2000AE1010200000000', 4, 0), ('170013F1400102031200008001040000000064', 0, 1),
    ('', 1, 0), ('30000400', 2, 0), ('410003', 3, 0), ('4100050180', 5, 0), ('4100050100', 6, 0), ('4100050101', 4, 0),
    ('41000401', 7, 0),
]
OF_A_RECORD = range(4, 12)

# The example of `wear`: P8 with REF and count of its entry, posted one after the other, and the page after each.
FRESH = '0000000A000A000A000A'
P8 = '170013F140010203120000800104'
POSTED = [
    ('0000000064', '0001000A000E001A001E0102120400000000000000640000006400000080'),
    ('0000000096', '0001000A000E001A001E0102120400000000000000960000009600000080'),
    ('000000001E', '0001000A000E001A001E0102120400000000000000B40000001E00000080'),
    ('8000000005', '0001000A000E001A001E0102120400000000000000B90000001E00000080'),
]

# Document 01's page of it, an old one (02 §5), and the new one that it is turned into.
OLD_PAGE = '00010008000C00180102120400000000000000B90000001E'
TURNED = '0001000A000E001A001E0102120400000000000000B90000001EFFFFFFFF'

# 02 §4, a busy day: of P8's counter 100 at 20:00, then 150 at 12:00, without and with 5 from the last report between. The entries, each with
# time, REF and count, and the page after each, in one feed or posted from page to page. On a page without the time of 20:00 the midnight
# stays hidden.
EVENING, BETWEEN, NOON = (72000 * 128, 0, 100), (43200 * 128, 0x80, 5), (43200 * 128, 0, 150)
AT_EVENING = '0001000A000E001A001E01021204000000000000006400000064008CA000'
BUSY = [
    [(EVENING, AT_EVENING), (NOON, '0001000A000E001A001E0102120400000000000000FA0000009600546000')],
    [(EVENING, AT_EVENING), (BETWEEN, '0001000A000E001A001E01021204000000000000006900000064008CA000'),
     (NOON, '0001000A000E001A001E0102120400000000000000FF0000009600546000')],
]
UNTIMED = '0001000A000E001A001E01021204000000000000006400000064FFFFFFFF'
HIDDEN = '0001000A000E001A001E0102120400000000000000960000009600546000'

# The time of a row where it is not known, and where no answer tells it.
NO_TIME, ANY_TIME = 'FFFFFFFF', '????????'

# How a run over a feed leaves off, as wear.h numbers it.
ENDED, STOPPED, MORE = range(3)


def line(*words):
    return ' '.join(str(word) or '-' for word in words)


def report(key, time, reference, count):
    """A block with a report of one entry; its counter's key is in hex."""
    return '170013F140%s03%s%06X01%s%02X%08X' % (key[:4], key[4:6], time, key[6:], reference, count)


def page_of(ledger):
    """A ledger's page, or None where a page cannot say it: over 256 rows, or something in a place past the rows, and so a ledger that gets 16.
    A page can say rows that do not rise, a reading above its life count, or a time past the latest."""
    count, places = ledger['count'], stored.places_of(ledger)
    if count > 256 or any(place != stored.EMPTY for place in places[count:]):
        return None
    places = (places + [stored.EMPTY] * count)[:count]
    return page_of_rows([('%08X' % key, life, reading, NO_TIME if time is None else '%08X' % time) for key, life, reading, time in places])


def page_of_rows(rows):
    """The page of rows, each with its key in hex, life count, reading, and time in hex."""
    count = len(rows)
    head = '%04X%04X%04X%04X%04X' % (count, 10, 10 + 4 * count, 10 + 16 * count, 10 + 20 * count)
    readings = ['%016X%08X' % (life, reading) for _, life, reading, _ in rows]
    return head + ''.join([key for key, _, _, _ in rows] + readings + [time for _, _, _, time in rows])


def kept(page, room, number, out):
    """A page through a feed of no octets, which loads it and stores it."""
    return line('feed', page, '', 0, room, number, out, len(out) // 2, 0, ENDED, 0, 0, 0, 0)


def of_ledger(case):
    """A post or a store, from page to page."""
    page = page_of(case['ledger'])
    if page is None:
        stored.must(case['number'] == 16, 'a ledger that no page can say gets %d' % case['number'])
        return None
    if case['op'] == 'store':
        return kept(page, stored.room_of(case), case['number'], case['out'])
    return line('post', page, case['in'], case['k'], stored.ENOUGH, case['number'], page_of(case['after']) if case['number'] == 0 else '')


def line_of(case):
    """A case as a line, or None where it cannot be said through the library."""
    op, number = case['op'], case['number']
    if op == 'read':
        return line(op, case['in'], number, case['offset'], case['len'], case['count'])
    if op == 'step':
        return line(op, case['in'], case['start'], number, case['offset'], case['next'], *stored.cells_of(case['record']))
    if op == 'entry':
        entry = case['entry'] or {'cat': 0, 'main': 0, 'sub': 0}
        values = [entry[name] for name in (('type', 'ref', 'count') if 'type' in entry else ('cat', 'main', 'sub'))]
        return line(op, case['in'], case['start'], case['k'], number, case['offset'], *values)
    if op == 'rewrite':
        return line(op, case['in'], stored.room_of(case), number, case['out'])
    if op == 'write':
        cells = stored.cells_of(case['record'])
        return cells and line(op, *cells, case['source'], stored.room_of(case), number, case['out'])
    if op in stored.TURNS:
        return line(stored.TURNS[op], case['page'], stored.room_of(case), number, case['out'])
    if op == 'load':
        return kept(case['page'], stored.ENOUGH, number, case['page'] if number == 0 else '')
    return of_ledger(case)


def left_off(octets, more):
    """Octets used, and how the run left off: from LEN to LEN, since a refused block is skipped by LEN as an accepted one is passed."""
    at = 0
    while len(octets) - at >= 3:
        length = octets[at + 1] << 8 | octets[at + 2]
        if length < 4:
            return at, STOPPED
        if length > len(octets) - at:
            break
        at += length
    if more:
        return at, MORE
    return at, ENDED if at == len(octets) else STOPPED


def feed_lines(octets, page, accepted, refused, posted, unposted):
    """A feed from a fresh page, as `wear` runs over it: the input ends with it, or more may come, and then a block that is not whole is
    no refused one yet; and in a page's room, and one octet less."""
    room, of_end = len(page) // 2, left_off(octets, 0)[1] == STOPPED
    for more in (0, 1):
        used, how = left_off(octets, more)
        cells = [room, used, how, accepted, refused - of_end + (how == STOPPED), posted, unposted]
        yield line('feed', FRESH, octets.hex(), more, stored.ENOUGH, 0, page, *cells)
        yield line('feed', FRESH, octets.hex(), more, room, 0, page, *cells)
        yield line('feed', FRESH, octets.hex(), more, room - 1, 12, '', *[0] * 7)


def stored_feeds():
    """Each stored feed, with the rows and totals of the sheet that `wear` prints for it, on which there are no times."""
    for octets, rows, totals in stored.feeds():
        yield from feed_lines(octets, page_of_rows([row + (ANY_TIME,) for row in rows]), *totals)


def examples():
    for octets, number, count in EXAMPLES:
        length = int(octets[2:6], 16) if number == 0 else 0
        yield line('read', octets, number, 3 if number in OF_A_RECORD else 0, length, count)
    page = FRESH
    for entry, after in POSTED:
        yield line('post', page, P8 + entry, 0, stored.ENOUGH, 0, after)
        page = after
    yield from feed_lines(bytes.fromhex(''.join(P8 + entry for entry, _ in POSTED)), page, 4, 0, 4, 0)
    for day in BUSY:
        page = FRESH
        for entry, after in day:
            yield line('post', page, report('01021204', *entry), 0, stored.ENOUGH, 0, after)
            page = after
        feed = ''.join(report('01021204', *entry) for entry, _ in day)
        yield from feed_lines(bytes.fromhex(feed), page, len(day), 0, len(day), 0)
    yield line('post', UNTIMED, report('01021204', *NOON), 0, stored.ENOUGH, 0, HIDDEN)
    yield line('to_new', OLD_PAGE, stored.ENOUGH, 0, TURNED)
    for page in (TURNED, POSTED[-1][1]):
        yield line('to_old', page, stored.ENOUGH, 0, OLD_PAGE)
    yield line('post', OLD_PAGE, P8 + POSTED[0][0], 0, stored.ENOUGH, 16, '')
    yield kept(OLD_PAGE, stored.ENOUGH, 16, '')


def main():
    of_examples, of_feeds = list(examples()), list(stored_feeds())
    print('\n'.join(of_examples + of_feeds))
    no_page = 'a ledger that no page can say, and that gets 16'
    why = {'write': 'an extension of item 110, for which a record has no cell', 'store': no_page, 'post': no_page}
    for op, count in stored.CASES.items():
        lines = [line_of(case) for case in stored.cases(op)]
        left_out = lines.count(None)
        print('\n'.join(text for text in lines if text))
        note = ', %d left out: %s' % (left_out, why[op]) if left_out else ''
        print('stored %s: %d of %d%s' % (op, count - left_out, count, note), file=sys.stderr)
    print('stored feeds: %d lines' % len(of_feeds), file=sys.stderr)
    print('examples of the documents: %d' % len(of_examples), file=sys.stderr)


main()

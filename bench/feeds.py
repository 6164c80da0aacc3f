"""NAME MEGABYTES FILE TWICE: writes the feed NAME (small, long, heavy or short) of about so many million octets, and one
of twice as many, and prints the octets and the blocks of both. The same octets each time: two million octets of blocks are
made, and repeated."""
import random
import sys

UNIT = 2000000
LONGEST = 65535
TYPES_65 = (1, 2, 3)

# the counters of `small` and `long`: 6 stations with 2 services of 16 counters each
STATIONS = [(1, sic) for sic in range(1, 7)]
SERVICES = (0x12, 0x34)
TYPES = tuple(range(5)) + tuple(range(20, 31))

# the counters of `heavy`: 250, over stations of 25, 50, 75 and 100
HEAVY = {1: 25, 2: 50, 3: 75, 4: 100}


def block(category, records):
    body = b''.join(records)
    return bytes([category]) + (3 + len(body)).to_bytes(2, 'big') + body


def time(rng):
    """A time of a day without a leap second."""
    return rng.randrange(11059200).to_bytes(3, 'big')


def entries(rng, types):
    """Half of them from midnight, half from the last report."""
    return bytes([len(types)]) + b''.join(
        bytes([t, rng.choice((0, 0x80))]) + rng.randrange(100000).to_bytes(4, 'big') for t in types)


def statistics(rng, source, service, types):
    return b'\xF1\x40' + bytes(source) + b'\x03' + bytes([service]) + time(rng) + entries(rng, types)


def few_statistics(rng, most):
    types = rng.sample(TYPES, rng.randint(1, most))
    return statistics(rng, rng.choice(STATIONS), rng.choice(SERVICES), types)


def station_status(rng):
    """Category 23, type 1: 010, 000, 070, 100 with or without its extension, 200."""
    status = rng.choice((b'\x10', bytes([0x11, 2 * rng.randint(1, 127)])))
    return b'\xDA' + bytes(rng.choice(STATIONS)) + b'\x01' + time(rng) + status + bytes([rng.randrange(256)])


def service_status(rng):
    """Category 23, type 2: 010, 000, 015, 070, 101 with or without its extension, 110; sometimes RE."""
    extra = rng.random() < 0.1
    specification = b'\xF5' + (b'\x82' if extra else b'\x80')
    period = bytes([rng.randrange(256)]) + rng.choice((b'\x20', bytes([0x21, 2 * rng.randint(1, 127)])))
    content = b'\x05ABCD' if extra else b''
    return (specification + bytes(rng.choice(STATIONS)) + b'\x02' + bytes([rng.choice(SERVICES)]) + time(rng) + period
            + bytes([2 * rng.randrange(6)]) + content)


def record_23(rng):
    return rng.choice((station_status, service_status, lambda r: few_statistics(r, 8)))(rng)


def record_65(rng):
    """By type 040, 020 or 050; sometimes with a second specification octet of zero."""
    kind = rng.choice(TYPES_65)
    marks = {1: 0xF4, 2: 0xF8, 3: 0xF2}[kind]
    last = {1: rng.randrange(256), 2: rng.randrange(256), 3: rng.randint(1, 16)}[kind]
    specification = bytes([marks | 1, 0]) if rng.random() < 0.3 else bytes([marks])
    return specification + bytes(rng.choice(STATIONS)) + bytes([kind, rng.randrange(256)]) + time(rng) + bytes([last])


def record_242(rng):
    versions = b''.join(bytes([rng.choice((21, 23, 48, 65)), rng.randrange(100), rng.randrange(100)])
                        for _ in range(rng.randint(1, 6)))
    return b'\xE0' + bytes(rng.choice(STATIONS)) + time(rng) + bytes([len(versions) // 3]) + versions


RECORD = {23: record_23, 65: record_65, 242: record_242}


def damaged(rng, category, records):
    """Refused, with a LEN that is right: an item cut off, a time past its latest, a spare field, no field, a category."""
    kind = rng.randrange(5)
    if kind == 0:
        return block(category, records[:-1] + [records[-1][:-1]])
    if kind == 1:
        return block(65, [b'\xF4\x01\x02\x01\x07\xA8\xC0\x80\x68'])
    if kind == 2:
        return block(category, records + [b'\x01\x08' if category != 242 else b'\x10'])
    if kind == 3:
        return block(category, records + [b'\x00'])
    return block(48, records)


def small(rng):
    """Blocks of 1 to 4 records of all categories; 4 in 100 damaged, 1 in 1,000 a report for which there is no room."""
    category = rng.choice((23, 23, 65, 65, 242))
    records = [RECORD[category](rng) for _ in range(rng.randint(1, 4))]
    chance = rng.random()
    if chance < 0.04:
        return damaged(rng, category, records)
    if chance < 0.041:
        return block(23, [statistics(rng, (9, 9), 0x12, range(100))])
    return block(category, records)


def filled(rng, category, record):
    """As many records as a block holds, one time in 20 with a last one that is refused."""
    records, size = [], 3
    while True:
        one = record(rng)
        if size + len(one) > LONGEST:
            break
        records.append(one)
        size += len(one)
    if rng.random() < 0.05:
        records[-1] = b'\x00' * len(records[-1])
    return block(category, records)


def short_23(rng):
    return b'\x50\x02' + time(rng)


def any_23(rng):
    return short_23(rng) if rng.random() < 0.5 else few_statistics(rng, 4)


def long(rng):
    """Blocks of thousands of records: category 65; category 23 with the shortest records, with reports, with both."""
    return rng.choice((lambda: filled(rng, 65, record_65), lambda: filled(rng, 23, short_23),
                       lambda: filled(rng, 23, lambda r: few_statistics(r, 4)), lambda: filled(rng, 23, any_23)))()


def heavy_report(rng):
    """25 to 250 entries: a station's counters, in turn or mixed, over and over."""
    sic = rng.choice(tuple(HEAVY))
    types = [i % HEAVY[sic] for i in range(rng.randint(25, 250))]
    if rng.random() < 0.5:
        rng.shuffle(types)
    return statistics(rng, (2, sic), 0x12, types)


def heavy(rng):
    return block(23, [heavy_report(rng) for _ in range(rng.randint(1, 8))])


def short(rng):
    """Blocks of 13,106 of the shortest records of category 23, five octets each, LEN 65,533: nothing but records to walk."""
    return block(23, [short_23(rng) for _ in range((LONGEST - 3) // 5)])


def unit(name):
    """Blocks up to some millions of octets, and how many."""
    rng = random.Random(name)
    make = {'small': small, 'long': long, 'heavy': heavy, 'short': short}[name]
    blocks, size = [], 0
    while size < UNIT:
        blocks.append(make(rng))
        size += len(blocks[-1])
    return b''.join(blocks), len(blocks)


def main(name, megabytes, path, twice):
    octets, blocks = unit(name)
    times = max(1, round(float(megabytes) * 1e6 / len(octets)))
    for path, n in ((path, times), (twice, 2 * times)):
        with open(path, 'wb') as f:
            for _ in range(n):
                f.write(octets)
        print(n * len(octets), n * blocks)


if len(sys.argv) != 5:
    sys.exit(__doc__)
main(*sys.argv[1:])

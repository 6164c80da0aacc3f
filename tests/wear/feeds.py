"""pieces N FILE: the file's octets, N at a time, each piece written alone. status FILE: the exit status that a feed asks for. large: a feed of
more than 100 MB. judge FILE: what wear printed for it."""
import sys

COUNTERS = 250
ROUNDS = 48


def block(records):
    body = b''.join(records)
    return b'\x17' + (3 + len(body)).to_bytes(2, 'big') + body


def report(counter, count):
    """Category 23, type 3, one entry from the last report."""
    return bytes([0xF1, 0x40, 1, counter // 256, 3, 0x12, 0, 0, 0x80, 1, counter % 256, 0x80]) + count.to_bytes(4, 'big')


def large():
    """Each round: 250 small blocks of one report each, ten long ones of 13,106 records that are no statistics reports, and 24 of 4,095 reports."""
    small = b''.join(block([report(c, 1)]) for c in range(COUNTERS))
    plain = block([b'\x50\x02\x00\x00\x00'] * 13106)
    heavy = block([report(i % COUNTERS, 3) for i in range(4095)])
    return small + plain * 10 + heavy * 24


def expected():
    lives = [ROUNDS * (1 + 3 * 24 * sum(1 for i in range(4095) if i % COUNTERS == c)) for c in range(COUNTERS)]
    lines = ['counter life reading'] + ['01%02X12%02X %d 0' % (c // 256, c % 256, lives[c]) for c in range(COUNTERS)]
    lines.append('accepted %d refused 0 posted %d unposted 0' % (ROUNDS * (COUNTERS + 34), ROUNDS * (COUNTERS + 24 * 4095)))
    return '\n'.join(lines) + '\n'


def pieces(size, path):
    with open(path, 'rb') as f:
        octets = f.read()
    for at in range(0, len(octets), size):
        sys.stdout.buffer.write(octets[at:at + size])
        sys.stdout.buffer.flush()


def status(path):
    """1 where fewer than 3 octets are left, or LEN is below 4 or passes the end (document 01); else 0."""
    with open(path, 'rb') as f:
        octets = f.read()
    at = 0
    while at < len(octets):
        size = int.from_bytes(octets[at + 1:at + 3], 'big') if at + 3 <= len(octets) else 0
        if size < 4 or at + size > len(octets):
            return 1
        at += size
    return 0


def main():
    if sys.argv[1] == 'pieces':
        pieces(int(sys.argv[2]), sys.argv[3])
    elif sys.argv[1] == 'status':
        print(status(sys.argv[2]))
    elif sys.argv[1] == 'large':
        one = large()
        for _ in range(ROUNDS):
            sys.stdout.buffer.write(one)
    elif sys.argv[1] == 'judge':
        with open(sys.argv[2]) as f:
            wrote = f.read()
        if wrote != expected():
            sys.exit('the large feed: printed otherwise than expected')
        print('a feed of %d octets: as expected' % (ROUNDS * len(large())))
    else:
        sys.exit(__doc__)


if __name__ == '__main__':
    main()

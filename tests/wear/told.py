"""told.py [WEAR]: what the launcher prints, what it tells on standard error, and its exit status, case by case, each held to what documents
say: document 01's refusals and offsets, README.md's sentences, and the launcher's own contract with the program (its first lines)."""
import os
import pty
import re
import shutil
import subprocess
import sys
import tempfile
import time
import tty

HERE = os.path.dirname(os.path.abspath(__file__))
ROOT = os.path.dirname(os.path.dirname(HERE))
WEAR = os.path.abspath(sys.argv[1]) if len(sys.argv) > 1 else os.path.join(ROOT, 'wear')

FAILED_READ = 'wear: failed: standard input could not be read to its end; nothing is printed\n'
FAILED_WRITE = 'wear: failed: standard output could not be written\n'
PATIENCE = 600          # seconds; nothing here takes so long, but a first build may
EMPTY = 'counter life reading\naccepted 0 refused 0 posted 0 unposted 0\n'


def sentences():
    """The refusals' words, by number, of README.md's table."""
    with open(os.path.join(ROOT, 'README.md')) as f:
        rows = re.findall(r'^\| (\d+) \| (.*) \|$', f.read(), re.M)
    return {int(number): words for number, words in rows}


WORDS = sentences()


def report(count, reference=0, second=1):
    """Document 01's P8 with a count and a time of its own."""
    time_of_day = (128 * second).to_bytes(3, 'big')
    return bytes.fromhex('170013F14001020312') + time_of_day + b'\x01\x04' + bytes([reference]) + count.to_bytes(4, 'big')


def sheet(life, reading, accepted, refused, posted):
    row = '01021204 %d %d\n' % (life, reading) if posted else ''
    return 'counter life reading\n%saccepted %d refused %d posted %d unposted 0\n' % (row, accepted, refused, posted)


def stopped(offset, refusal, unread):
    return 'wear: stopped at octet %d: refused %d, %s; %d octets from there on were not read\n' % (offset, refusal, WORDS[refusal], unread)


def skipped(offset, octets, refusal, at):
    """A refused block that stands at an offset; its faulty record is at another in the block, 0 for the header."""
    fault = 'its record at octet %d' % (offset + at) if at else 'its header'
    head = 'wear: skipped at octet %d: category %d, LEN %d: ' % (offset, octets[0], octets[1] * 256 + octets[2])
    return head + 'refused %d, %s; %s\n' % (refusal, WORDS[refusal], fault)


# Blocks that are refused and skipped: octets, refusal, offset of the faulty record. All but the last two are examples of document 01, as 02 amends them.
REFUSED = [(bytes.fromhex(octets), refusal, at) for octets, refusal, at in [
    ('41000CF401020107A8C08068', 11, 3), ('41000BF001020207000080', 10, 3), ('F2000DE0010200000001170164', 11, 3),
    ('F2000AE0010200000000', 8, 3), ('F2000AE1010200000000', 4, 3), ('30000400', 2, 0), ('4100050180', 5, 3), ('4100050100', 6, 3),
    ('4100050101', 4, 3), ('41000401', 7, 3),
    ('17000A51800200008001', 9, 3),                     # item 110 has no extension
    ('410014F40102010700008068F001020207000080', 10, 12),   # the second of two records
]]


def feed_with_refused():
    """A report, all those blocks, and a report behind them; the feed, and the lines that tell of it."""
    feed, lines = report(100), ''
    for octets, refusal, at in REFUSED:
        lines += skipped(len(feed), octets, refusal, at)
        feed += octets
    return feed + report(150), lines


class Run:
    """A command on octets that come in pieces; what it wrote, and its status."""

    def __init__(self, args=(), octets=b'', wear=None, piece=None, **how):
        how.setdefault('stdin', subprocess.PIPE)
        how.setdefault('stdout', subprocess.PIPE)
        how.setdefault('stderr', subprocess.PIPE)
        process = subprocess.Popen([wear or WEAR, *args], **how)
        for at in range(0, len(octets), piece) if piece else ():
            process.stdin.write(octets[at:at + piece])
            process.stdin.flush()
        wrote = process.communicate(None if piece or not process.stdin else octets, timeout=PATIENCE)
        self.out, self.err = (said if said is None else said.decode() for said in wrote)
        self.status = process.wait()


FAULTS = []
CASES = 0


def holds(name, run, status, out=None, err=None):
    """Status, standard output and standard error are what is given; None is not compared."""
    global CASES
    CASES += 1
    for what, wanted, got in (('status', status, run.status), ('standard output', out, run.out), ('standard error', err, run.err)):
        if wanted is not None and wanted != got:
            FAULTS.append(name)
            print('%s: %s\n  wanted %r\n  got    %r' % (name, what, wanted, got))


def good_runs():
    holds('nothing at all', Run(), 0, EMPTY, '')
    four = report(100) + report(150) + report(30) + report(5, 0x80)
    holds("document 01's example", Run(octets=four), 0, sheet(185, 30, 4, 0, 4), '')
    with tempfile.NamedTemporaryFile() as f:
        f.write(four)
        f.flush()
        holds('a feed as FILE', Run([f.name]), 0, sheet(185, 30, 4, 0, 4), '')
        holds('--tell with nothing to tell, and FILE', Run(['--tell', '--', f.name]), 0, sheet(185, 30, 4, 0, 4), '')


def busy_days():
    """02 §4: 100 at 20:00 and 150 at 12:00 are of two days, however the feed comes; 150 at 20:00 is of the same day, and a refused block between
    tells no time."""
    evening, noon, later = report(100, second=72000), report(150, second=43200), report(150, second=72000)
    for piece in (None, 1, len(evening)):
        holds('a busy day, pieces of %s' % piece, Run(octets=evening + noon, piece=piece), 0, sheet(250, 150, 2, 0, 2), '')
    between = report(5, 0x80, second=43200)
    holds('a busy day, and a count from the last report', Run(octets=evening + between + noon), 0, sheet(255, 150, 3, 0, 3), '')
    holds('one long day', Run(octets=evening + later), 0, sheet(150, 150, 2, 0, 2), '')
    cut_short = b'\x17\x00\x12' + report(7, second=79200)[3:18]
    holds('one long day, and a refused block', Run(octets=evening + cut_short + later), 0, sheet(150, 150, 2, 1, 2), '')


def runs_at_once():
    """Launchers beside each other do not spoil each other's check."""
    running = [subprocess.Popen([WEAR], stdin=subprocess.DEVNULL, stdout=subprocess.PIPE, stderr=subprocess.PIPE) for _ in range(8)]
    for process in running:
        run = Run.__new__(Run)
        run.out, run.err = (said.decode() for said in process.communicate(timeout=PATIENCE))
        run.status = process.returncode
        holds('eight at once', run, 0, EMPTY, '')


def stopped_runs():
    """A stray datagram among reports, a text, a feed cut short, LEN below 4 with much behind it: where, why, and how much was not read."""
    eight = b''.join(report(10 * k) for k in range(1, 9))
    dns = bytes.fromhex('1A2B01000001000000000000076578616D706C6503636F6D0000010001')
    rest = b''.join(report(10 * k) for k in range(9, 17))
    feed = eight + dns + rest
    holds('a stray datagram', Run(octets=feed), 1, sheet(80, 80, 8, 1, 8), stopped(len(eight), 2, len(dns + rest)))
    text = b'no feed at all\n'
    holds('a text', Run(octets=text), 1, sheet(0, 0, 0, 1, 0), stopped(0, 2, len(text)))
    for cut in (1, 2, 3, 4, 18):
        held = report(100)[:cut]
        holds('a feed cut after %d octets of a block' % cut, Run(octets=eight + held), 1, sheet(80, 80, 8, 1, 8), stopped(len(eight), 1, cut))
    low = b'\x17\x00\x03' + bytes(1000000)
    for piece in (None, 7001):
        holds('LEN below 4', Run(octets=eight + low, piece=piece), 1, sheet(80, 80, 8, 1, 8), stopped(len(eight), 3, len(low)))
    holds('LEN below 4 of another category', Run(octets=b'\x30\x00\x00\x00'), 1, sheet(0, 0, 0, 1, 0), stopped(0, 2, 4))


def told_runs():
    """With --tell a line for each refused block that was skipped, however the feed comes; without it, a count."""
    feed, lines = feed_with_refused()
    printed = sheet(150, 150, 2, len(REFUSED), 2)
    holds('refused blocks', Run(octets=feed), 0, printed, '')
    for piece in (None, 1, 7, 4096):
        holds('refused blocks told, pieces of %s' % piece, Run(['--tell'], feed, piece=piece), 0, printed, lines)
    cut = feed + b'\x17\x00'
    holds('refused blocks told, and a stop', Run(['--tell'], cut), 1, sheet(150, 150, 2, len(REFUSED) + 1, 2), lines + stopped(len(feed), 1, 2))
    many = 20000
    offsets = [len(feed) * k for k in range(many)]
    run = Run(['--tell'], feed * many)
    asked = sum(1 for line in run.err.splitlines() if line.startswith('wear: skipped at octet '))
    if asked != many * len(REFUSED) or skipped(offsets[-1] + 19, *REFUSED[0]) not in run.err:
        FAULTS.append('many refused blocks')
        print('many refused blocks: %d lines' % asked)
    holds('many refused blocks', run, 0, sheet(150 + (many - 1) * 150, 150, 2 * many, many * len(REFUSED), 2 * many))


def is_seen(pipe, wanted):
    """Whether a pipe gives these octets, and waits then."""
    os.set_blocking(pipe.fileno(), False)
    seen, until = b'', time.monotonic() + 60
    while seen != wanted.encode() and time.monotonic() < until:
        seen += pipe.read() or b''
        time.sleep(0.01)
    os.set_blocking(pipe.fileno(), True)
    return seen == wanted.encode()


def live_runs():
    """A feed that stops and goes on: the sheet and the first half of the sentence are there at once, the count when the input ends."""
    global CASES
    sentence, behind = stopped(19, 3, 3 + 6), b'abcdef'
    half = sentence[:sentence.index(';', sentence.index('refused'))]
    process = subprocess.Popen([WEAR], stdin=subprocess.PIPE, stdout=subprocess.PIPE, stderr=subprocess.PIPE)
    process.stdin.write(report(100) + b'\x17\x00\x03')
    process.stdin.flush()
    CASES += 1
    if not (is_seen(process.stdout, sheet(100, 100, 1, 1, 1)) and is_seen(process.stderr, half)):
        FAULTS.append('a live feed')
        print('a live feed: the sheet or the first half of the sentence was not seen at once')
    out, err = process.communicate(behind, timeout=PATIENCE)
    run = Run.__new__(Run)
    run.out, run.err, run.status = out.decode(), err.decode(), process.returncode
    holds('a live feed that stopped, at its end', run, 1, '', sentence[len(half):])


def from_terminal(octets):
    """A run on octets behind which a read fails: a terminal whose other side is gone."""
    master, slave = pty.openpty()
    tty.setraw(slave)
    os.write(slave, octets)
    os.close(slave)
    run = Run(stdin=master)
    os.close(master)
    return run


def failed_reads():
    """A read that fails behind octets that came: nothing is printed; behind a stop, so many octets at least were not read."""
    if not os.path.exists('/dev/ptmx'):
        print('LEFT OUT: a read that fails behind octets, as there is no /dev/ptmx')
        return
    holds('a read that fails behind a report', from_terminal(report(100)), 1, '', FAILED_READ)
    sentence = stopped(19, 3, 5).replace('; 5 octets', '; at least 5 octets')
    holds('a read that fails behind a stop', from_terminal(report(100) + b'\x17\x00\x03ab'), 1, sheet(100, 100, 1, 1, 1), sentence)


def spoilt_ends():
    """Standard input that cannot be read, standard output that cannot be written, closed ends."""
    with tempfile.TemporaryDirectory() as folder:
        holds('a directory as FILE', Run([folder]), 1, '', FAILED_READ)
        with open(os.path.join(folder, 'feed'), 'wb') as f:
            f.write(report(100))
        where = os.open(folder, os.O_RDONLY)
        holds('a directory as standard input', Run(stdin=where), 1, '', FAILED_READ)
        os.close(where)
        missing = os.path.join(folder, 'missing')
        holds('a FILE that is not there', Run([missing]), 1, '', 'wear: failed: %s could not be opened\n' % missing)
    if os.path.exists('/dev/full'):
        with open('/dev/full', 'wb') as full:
            holds('/dev/full', Run(octets=report(100), stdout=full), 1, None, FAILED_WRITE)
            holds('/dev/full and a stop', Run(octets=b'no', stdout=full), 1, None, FAILED_WRITE + stopped(0, 1, 2))
    else:
        print('LEFT OUT: a full device, as there is no /dev/full')
    reader, writer = os.pipe()
    os.close(reader)
    holds('a reader that went away', Run(octets=report(100), stdout=writer), 1, None, FAILED_WRITE)
    os.close(writer)
    shell = ['sh', '-c']
    for closed, wanted in (('>&-', 'wear: failed: standard output is closed\n'), ('<&-', 'wear: failed: standard input is closed\n')):
        holds('closed, ' + closed, Run([shell[1], '"$0" %s' % closed, WEAR], wear=shell[0]), 1, '', wanted)
    for name, told in (('full', '/dev/full'), ('unread', None)):
        if told and not os.path.exists(told):
            continue
        if told:
            reader, writer = None, os.open(told, os.O_WRONLY)
        else:
            reader, writer = os.pipe()
            os.close(reader)
        feed, _ = feed_with_refused()
        printed = sheet(150, 150, 2, len(REFUSED), 2)
        holds('standard error %s, a good run that tells' % name, Run(['--tell'], feed, stderr=writer), 0, printed)
        holds('standard error %s, a stop' % name, Run(octets=b'no', stderr=writer), 1, sheet(0, 0, 0, 1, 0))
        os.close(writer)
    with tempfile.TemporaryDirectory() as folder:
        fifo = os.path.join(folder, 'fifo')
        os.mkfifo(fifo)
        writer = subprocess.Popen(['sh', '-c', 'printf "$1" >"$0"', fifo, ''.join('\\%03o' % octet for octet in report(100))])
        holds('a named pipe as FILE', Run([fifo]), 0, sheet(100, 100, 1, 0, 1), '')
        writer.wait()
    holds('closed standard error', Run(['-c', 'printf no | "$0" 2>&-', WEAR], wear='sh'), 1, sheet(0, 0, 0, 1, 0), '')


def bad_use():
    usage = Run(['--help'])
    holds('--help', usage, 0, None, '')
    if not usage.out.startswith('usage: wear [--tell] [FILE]\n'):
        FAULTS.append('--help')
        print('--help: %r' % usage.out)
    for args, why in ((['--tall'], '--tall: no such option'), (['-x', 'f'], '-x: no such option'), (['a', 'b'], 'one FILE at most, behind the options'),
                      (['a', '--tell'], 'one FILE at most, behind the options')):
        holds('bad use, %s' % args, Run(args), 2, '', 'wear: %s\n%s' % (why, usage.out))


def on_terminal(command, env):
    """What a command writes to a terminal that is its standard error; and its status."""
    master, slave = pty.openpty()
    process = subprocess.Popen([command], stdin=subprocess.DEVNULL, stdout=subprocess.PIPE, stderr=slave, env=env)
    os.close(slave)
    out, said = process.stdout.read().decode(), b''
    while True:
        try:
            piece = os.read(master, 4096)
        except OSError:
            piece = b''
        if not piece:
            break
        said += piece
    os.close(master)
    run = Run.__new__(Run)
    run.out, run.err, run.status = out, said.decode().replace('\r\n', '\n'), process.wait()
    return run


# Stands in for rt: `run` says what its lines say, and makes the program of what it is given.
STAND_IN = """#!/bin/sh
[ "$1" = run ] || exit 2
[ -f ../../crates.txt ] || exit 2
{
    echo 'rt: octets: begins with what a check kept in /elsewhere/crates/octets'
    echo 'rt: chose --jobs 2 for layouts'
    echo 'fn layouts::ends::end: proved'
    echo 'rt: chose --jobs 2 for wear'
} >&2
[ -n "$PROGRAM" ] || exit 1
mkdir -p out
cp "$PROGRAM" out/wear
echo 'what the program prints, as rt runs it'
"""


def first_runs():
    """A launcher that has nothing built, through a link: on a terminal it tells crate by crate what it proves, elsewhere nothing."""
    begun = 'wear: proving and building the program, crate by crate; this takes some minutes, the first time only\n'
    told = 'wear: proving layouts\nwear: proving wear\n'
    with tempfile.TemporaryDirectory() as folder:
        box, bin = os.path.join(folder, 'box'), os.path.join(folder, 'bin')
        os.makedirs(os.path.join(box, 'crates', 'wear')), os.mkdir(bin)
        shutil.copy(WEAR, box)
        shutil.copy(os.path.join(ROOT, 'crates.txt'), box)
        stand_in, link = os.path.join(bin, 'rt'), os.path.join(folder, 'link')
        with open(stand_in, 'w') as f:
            f.write(STAND_IN)
        os.chmod(stand_in, 0o755)
        os.symlink(os.path.join(box, 'wear'), link)
        program = os.path.join(os.path.dirname(WEAR), 'crates', 'wear', 'out', 'wear')
        env = dict(os.environ, PATH=bin + os.pathsep + os.environ['PATH'], PROGRAM=program)
        if os.path.exists('/dev/ptmx'):
            holds('a first run on a terminal, through a link', on_terminal(link, env), 0, EMPTY, begun + told)
            holds('a run on a terminal after a change', on_terminal(link, env), 0, EMPTY, told)
        else:
            print('LEFT OUT: a terminal, as there is no /dev/ptmx')
        holds('the same, not on a terminal', Run(wear=link, env=env), 0, EMPTY, '')
        unbuilt = Run(wear=link, env=dict(env, PROGRAM=''))
        holds('a program that is not proved', unbuilt, 1, '')
        holds('the same, with a relative TMPDIR', Run(wear=link, env=dict(env, PROGRAM='', TMPDIR='.'), cwd=folder), 1, '')
        if not unbuilt.err.endswith('rt: chose --jobs 2 for wear\nwear: failed: the program could not be built\n'):
            FAULTS.append('a program that is not proved')
            print('a program that is not proved: %r' % unbuilt.err)
        # a program that is ended by the system
        short = os.path.join(folder, 'short')
        with open(short, 'w') as f:
            f.write('#!/bin/sh\nkill -9 $$\n')
        os.chmod(short, 0o755)
        killed = Run(wear=link, env=dict(env, PROGRAM=short))
        killed.err = killed.err.splitlines(keepends=True)[-1]           # some shells say before it that they saw it
        holds('a program that the system ended', killed, 1, '', 'wear: failed: the program ended with status 137\n')


def main():
    Run()                       # proves and builds, where that has not been done
    for cases in (good_runs, busy_days, runs_at_once, stopped_runs, told_runs, live_runs, failed_reads, spoilt_ends, bad_use, first_runs):
        cases()
    print('told: %d cases, %d differences' % (CASES, len(FAULTS)))
    return 1 if FAULTS else 0


sys.exit(main())

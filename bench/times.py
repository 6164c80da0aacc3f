"""FILE TWICE RUNS PLAIN PROGRAM..: times PLAIN and the command PROGRAM.. on two feeds, in turn, and prints the best
seconds of PLAIN and of PROGRAM on FILE, and the medians over the rounds of their ratio and of the growth of PROGRAM's
seconds from FILE to TWICE. Fails where they print otherwise than each other."""
import filecmp
import os
import statistics
import sys
import tempfile


def seconds(command, feed, out):
    """User and system time of one run, from a file to a file: waiting is not in it."""
    actions = [(os.POSIX_SPAWN_OPEN, 0, feed, os.O_RDONLY, 0),
               (os.POSIX_SPAWN_OPEN, 1, out, os.O_WRONLY | os.O_CREAT | os.O_TRUNC, 0o600)]
    pid = os.posix_spawn(command[0], command, os.environ, file_actions=actions)
    _, status, used = os.wait4(pid, 0)
    if status != 0:
        sys.exit('%s failed' % command[0])
    return used.ru_utime + used.ru_stime


def equal(plain, program, feed, folder):
    """Whether both print the same for a feed, and something."""
    outs = [os.path.join(folder, name) for name in ('plain', 'program')]
    seconds(plain, feed, outs[0])
    seconds(program, feed, outs[1])
    return os.path.getsize(outs[0]) > 0 and filecmp.cmp(*outs, shallow=False)


def rounds(runs, timed, folder):
    """The seconds of each command on its feed, round by round. They take turns, so that a slow spell meets all."""
    out = os.path.join(folder, 'out')
    return [[seconds(command, feed, out) for command, feed in timed] for _ in range(runs)]


def main(feed, twice, runs, plain, *program):
    plain = [plain]
    with tempfile.TemporaryDirectory() as folder:
        for path in (feed, twice):
            if not equal(plain, program, path, folder):
                sys.exit('%s: the two print otherwise than each other' % path)
        taken = rounds(int(runs), ((plain, feed), (program, feed), (program, twice)), folder)
    # A machine that others use has slow spells longer than a run, and the least of short runs falls between them more
    # often than that of long ones: so the quotients are taken within a round.
    ratio = statistics.median(wear / c for c, wear, _ in taken)
    growth = statistics.median(wear_twice / wear for _, wear, wear_twice in taken)
    print('%.3f %.3f %.2f %.2f' % (min(c for c, _, _ in taken), min(wear for _, wear, _ in taken), ratio, growth))


if len(sys.argv) < 6:
    sys.exit(__doc__)
main(*sys.argv[1:])

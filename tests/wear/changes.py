"""changes.py: small changes to `wear` that its proofs let pass, since no contract can say what a call of C reads or writes (changes/*.edit, like
must-fail edits, but for several files and lines). Each is made in a copy, proved and built there, and the stored runs have to tell it from
`wear`: the crate's own run, or a case of told.py. A change that the proofs refuse belongs in crates/wear/must-fail, and is a fault here."""
import concurrent.futures
import glob
import os
import shutil
import subprocess
import sys
import tempfile

HERE = os.path.dirname(os.path.abspath(__file__))
ROOT = os.path.dirname(os.path.dirname(HERE))


def edited(path, text):
    """Makes an edit: in the files that it names each line `old`, which stands there once, becomes the lines `new` behind it."""
    file = None
    for line in text.splitlines():
        word, _, rest = line.partition(': ')
        if word == 'file':
            file = os.path.join(path, 'crates', 'wear', rest)
        elif word == 'old':
            with open(file, encoding='utf-8') as f:
                lines = f.read().splitlines()
            if lines.count(rest) != 1:
                sys.exit('changes.py: %r does not stand once in %s' % (rest, file))
            at = lines.index(rest)
            del lines[at]
        elif word == 'new':
            lines.insert(at, rest)
            at += 1
            with open(file, 'w', encoding='utf-8') as f:
                f.write('\n'.join(lines) + '\n')
        elif not line.startswith('#'):
            sys.exit('changes.py: no edit: %r' % line)


def copy_of_box(path):
    for name in ('crates', 'tests/wear'):
        shutil.copytree(os.path.join(ROOT, name), os.path.join(path, name), ignore=shutil.ignore_patterns('out', 'must-fail', 'stored'))
    for name in ('crates.txt', 'wear', 'README.md'):
        shutil.copy(os.path.join(ROOT, name), path)


def caught(edit):
    """Which stored run tells a change from `wear`; None where none does, or where the proofs refuse it."""
    with tempfile.TemporaryDirectory() as path, open(edit, encoding='utf-8') as f:
        copy_of_box(path)
        edited(path, f.read())
        crate = os.path.join(path, 'crates', 'wear')
        with open(os.path.join(crate, 'stdin'), 'rb') as octets:
            run = subprocess.run(['rt', 'run'], cwd=crate, stdin=octets, capture_output=True, text=True)
        if run.returncode != 0:
            return None, 'refused by the proofs, or not built:\n' + run.stderr[-2000:]
        with open(os.path.join(crate, 'stdout'), encoding='utf-8') as printed:
            if run.stdout != printed.read():
                return True, 'by the run of crates/wear'
        told = subprocess.run([sys.executable, 'tests/wear/told.py', 'wear'], cwd=path, stdin=subprocess.DEVNULL, capture_output=True, text=True)
        return told.returncode != 0, 'by told.py: ' + told.stdout.split('\n', 1)[0] if told.returncode else 'by no stored run'


def main():
    edits = sorted(glob.glob(os.path.join(HERE, 'changes', '*.edit')))
    missed = 0 if edits else 1
    with concurrent.futures.ThreadPoolExecutor(max_workers=2) as pool:
        for edit, (is_caught, how) in zip(edits, pool.map(caught, edits)):
            print('%s: %s, %s' % (os.path.basename(edit)[:-5], 'caught' if is_caught else 'NOT CAUGHT', how))
            missed += not is_caught
    print('changes: %d, %d not caught' % (len(edits), missed))
    return 1 if missed else 0


sys.exit(main())

"""program: a C program that prints every value and sentence of wear.h. judge FILE: what it printed, held to the Rattle sources,
README.md and examples/post.rs."""
import glob
import os
import re
import sys

ROOT = os.path.normpath(os.path.join(os.path.dirname(os.path.abspath(__file__)), '..', '..'))
HEADER = 'include/wear.h'
REFUSALS = 'crates/octets/src/refusal.rt'
DOORS = 'crates/doors/src'
EXPORTS = 'crates/doors_c/src'
CELLS = DOORS + '/cell.rt'
WORDS = 'crates/text/src/refusals.rt'
EXAMPLE = 'examples/post.rs'

PREFIX = 'WEAR_'
MACROS = ['WEAR_VERSION', 'WEAR_PAGE_MOST', 'WEAR_FRESH_OCTETS', 'WEAR_OLD_PAGE_MOST']

# The enums of the header, each by a name that it has.
ENUMS = {'refusals': 'WEAR_ACCEPTED', 'record': 'WEAR_CELLS', 'feed': 'WEAR_FEED_CELLS', 'left off': 'WEAR_ENDED'}

# The sentences that README.md does not have: that of 0, and that of a number which no refusal has.
ACCEPTED, NO_REFUSAL = 'accepted', 'no refusal has this number'
UNUSED = [18, 19, 255, 256, 2 ** 32 - 1]

CONSTANT = re.compile(r'^\s*(?:pub(?:\(\w+\))?\s+)?const\s+(\w+)\s*:\s*(\w+)\s*=\s*([^;]+);', re.M)
NUMERAL = re.compile(r'(0x[0-9A-Fa-f_]+|[0-9][0-9_]*)(?:[iu](?:8|16|32|64|size))?$')

# What C has for a type of the doors, and for one of the example in Rust. A usize of the doors is a number, and has 64 bits.
OF_DOORS = {'&[u8]': ['const uint8_t *', 'size_t'], '&mut [u8]': ['uint8_t *', 'size_t'], '&[u64]': ['const uint64_t *', 'size_t'],
            '&mut [u64]': ['uint64_t *', 'size_t'], 'usize': ['uint64_t'], 'u32': ['uint32_t']}
OF_EXAMPLE = {'*const u8': ['const uint8_t *'], '*mut u8': ['uint8_t *'], '*const u64': ['const uint64_t *'], '*mut u64': ['uint64_t *'],
              'usize': ['size_t'], 'u64': ['uint64_t'], 'u32': ['uint32_t']}

# The octets of a sentence behind an arm of a match, or behind a test for a number, and no other arm between.
ARM = re.compile(r'(?:([\w:]+|Err\(_\))\s*=>|\bif n == (\w+)\b)(?:(?!=>)[^"])*?\bb"([^"]*)"')

differences = []


def differ(text, *words):
    differences.append(text % words)


def read(path):
    """A file's text; None, told as a difference, where it is not there."""
    try:
        with open(os.path.join(ROOT, path)) as f:
            return f.read()
    except FileNotFoundError:
        differ('%s is not there', path)
        return None


def header_text():
    """The header without its comments."""
    return re.sub(r'/\*.*?\*/', '', read(HEADER), flags=re.S)


def header_enums():
    """The names of each enum of the header, by ENUMS. Every enum has to be one of these, so that none is held to nothing."""
    enums = {}
    for body in re.findall(r'\benum\b[^{;]*\{([^}]*)\}', header_text()):
        names = re.findall(r'(\w+)\s*(?:=[^,]*)?(?:,|$)', body.strip())
        known = [title for title, name in ENUMS.items() if name in names]
        if len(known) != 1 or known[0] in enums:
            sys.exit('header.py: an enum of wear.h is held to nothing, or two are held to the same: %s' % ' '.join(names))
        enums[known[0]] = names
    if len(enums) != len(ENUMS):
        sys.exit('header.py: wear.h has not the enums of %s' % ' '.join(ENUMS[title] for title in ENUMS if title not in enums))
    return enums


def header_functions():
    """The types of each function that the header declares: those of its parameters, and that of its answer."""
    functions = {}
    for answer, name, parameters in re.findall(r'^(\w+) (\w+)\(([^)]*)\);', header_text(), re.M):
        types = [re.sub(r'\w+$', '', parameter.strip()).strip() for parameter in parameters.split(',') if parameter != 'void']
        functions[name] = types + [answer]
    return functions


def functions_in(text, types):
    """The functions that a Rattle or Rust source has for C, with the types that C has for theirs."""
    functions = {}
    for name, parameters, answer in re.findall(r'\bfn\s+(%s\w+)\s*\(([^)]*)\)\s*->\s*(\w+)' % PREFIX.lower(), re.sub(r'//.*', '', text)):
        written = [parameter.split(':')[1].strip() for parameter in parameters.split(',') if parameter.strip()] + [answer]
        functions[name] = [of_c for word in written for of_c in types.get(word, [word])]
    return functions


def program():
    lines = ['#include <stdio.h>', '#include "wear.h"', '', 'static const uint8_t fresh[] = WEAR_FRESH_PAGE;', '', 'int main(void)', '{']
    for name in sum(header_enums().values(), MACROS):
        lines.append('    printf("%s %%lld\\n", (long long)%s);' % (name, name))
    for number in list(range(18)) + UNUSED:
        lines.append('    printf("sentence %d %%s\\n", wear_sentence(%du));' % (number, number))
    lines += ['    for (size_t i = 0; i < sizeof fresh; i++)', '        printf("fresh %d\\n", fresh[i]);', '    return 0;', '}']
    print('\n'.join(lines))


def seen(path):
    """What the program printed: the value of each name, the sentence of each number, and the octets of the fresh page."""
    values, sentences, fresh = {}, {}, []
    with open(path) as f:
        for line in f.read().splitlines():
            name, rest = line.split(' ', 1)
            if name == 'sentence':
                number, sentence = rest.split(' ', 1)
                sentences[int(number)] = sentence
            elif name == 'fresh':
                fresh.append(int(rest))
            else:
                values[name] = int(rest)
    return values, sentences, fresh


def constants_of(text):
    """The constants of a Rattle or Rust source, as they are written."""
    return {name: expression.strip() for name, _, expression in CONSTANT.findall(re.sub(r'//.*', '', text))}


def cases_of(path, name):
    """The cases of an enum, as their values are written; of one that has none written, nothing can be told."""
    body = re.search(r'^pub enum %s \{\n(.*?)^\}' % name, re.sub(r'//.*', '', read(path) or ''), re.M | re.S)
    return dict(re.findall(r'(\w+)(?:\s*=\s*([^,]+))?,', body.group(1))) if body else {}


def in_capitals(case):
    """A case's name as the header and the constants write it."""
    return re.sub(r'(?<=[a-z0-9])(?=[A-Z])', '_', case).upper()


def value_of(expression, constants):
    """The value of a sum of numerals, products and names; None where it is anything else."""
    def factor(word):
        word = re.sub(r'\s+as\s+\w+$', '', word.strip())
        numeral = NUMERAL.match(word)
        if numeral:
            return int(numeral.group(1).replace('_', ''), 0)
        name = word.split('::')[-1]
        return value_of(constants[name], constants) if name in constants else None

    total = 0
    for term in expression.split('+'):
        product = 1
        for word in term.split('*'):
            value = factor(word)
            if value is None:
                return None
            product *= value
        total += product
    return total


def values_in(path, others=()):
    """The value of each constant of a file, some of which may be sums of others; None where it cannot be told."""
    constants = constants_of(read(path) or '')
    return {name: value_of(expression, {**dict(others), **constants}) for name, expression in constants.items()}


def paths_of(folder):
    paths = sorted(glob.glob(os.path.join(ROOT, folder, '**', '*.rt'), recursive=True))
    return [os.path.relpath(path, ROOT) for path in paths]


def values_in_doors():
    """The constants of each file of the doors, with their values."""
    paths = paths_of(DOORS)
    every = {name: expression for path in paths for name, expression in constants_of(read(path)).items()}
    return {path: values_in(path, every) for path in paths}


def hold(values, name, sources, where):
    """A name against each file that has a constant for it. One has to."""
    wanted = name[len(PREFIX):]
    found = [(path, constant, value) for path in sources for constant, value in sources[path].items() if constant == wanted]
    if not found:
        differ('%s is in wear.h; %s has no constant %s', name, where, wanted)
    for path, constant, value in found:
        if value is None:
            differ('%s is %d in wear.h; what %s is in %s cannot be told', name, values[name], constant, path)
        elif value != values[name]:
            differ('%s is %d in wear.h; %s is %d in %s', name, values[name], constant, value, path)


def hold_all(values, names, path, constants):
    """Each name against a file's constants, and each constant against the names."""
    for name in names:
        hold(values, name, {path: constants}, path)
    known = {name[len(PREFIX):] for name in values}
    for constant in sorted(set(constants) - known):
        differ('%s has %s; wear.h has no %s', path, constant, PREFIX + constant)
    print('%d names of wear.h held to %s' % (len(names), path))


def hold_doors(values, enums):
    """The record's cells against their file; the others against any file of the doors."""
    sources = values_in_doors()
    if CELLS in sources:
        hold_all(values, [name for name in enums['record'] if name != 'WEAR_CELLS'], CELLS, sources[CELLS])
    else:
        differ('%s is not there, and so the cells of a record are held to nothing', CELLS)
    names = ['WEAR_VERSION', 'WEAR_ACCEPTED', 'WEAR_CELLS'] + enums['feed'] + enums['left off']
    for name in names:
        hold(values, name, sources, DOORS)
    print('%d names of wear.h held to %s' % (len(names), DOORS))


def hold_functions(found, where):
    """Functions of a source against those that the header declares."""
    functions = header_functions()
    for name in found:
        if name not in functions:
            differ('%s has the function %s; wear.h has none', where, name)
        elif found[name] != functions[name]:
            differ('%s has %s in wear.h; for C it has %s in %s', name, ', '.join(functions[name]), ', '.join(found[name]), where)
    print('%d functions of wear.h held to %s' % (len(found), where))


def hold_all_functions():
    """The doors' functions and their exports, each of which the header declares, and which are all that it declares."""
    for folder in DOORS, EXPORTS:
        found = {}
        for path in paths_of(folder):
            found.update(functions_in(read(path), OF_DOORS))
        for name in sorted(set(header_functions()) - set(found)):
            differ('%s is in wear.h; %s has no such function', name, folder)
        hold_functions(found, folder)


def hold_page(values, fresh):
    """02 §5: a page has 10 octets, and 20 for each of at most 256 rows; row count, three offsets and length come first. An old one has 8,
    and 16 for each."""
    for name, header, row in (('WEAR_PAGE_MOST', 10, 20), ('WEAR_OLD_PAGE_MOST', 8, 16)):
        if values[name] != header + row * 256:
            differ('%s is %d, and not %d + %d * 256', name, values[name], header, row)
    if fresh != [0, 0, 0, 10, 0, 10, 0, 10, 0, 10]:
        differ('WEAR_FRESH_PAGE is %s, and not the page of no rows', fresh)
    if values['WEAR_FRESH_OCTETS'] != len(fresh):
        differ('WEAR_FRESH_OCTETS is %d; WEAR_FRESH_PAGE has %d octets', values['WEAR_FRESH_OCTETS'], len(fresh))
    print("the largest size of a page, and of an old one, and a fresh page held to documents 01 and 02")


def hold_sentence(number, sentence, sentences, path):
    if sentences[number] != sentence:
        differ('refusal %d: wear.h says "%s"; %s says "%s"', number, sentences[number], path, sentence)


def hold_readme(sentences):
    section = re.search(r'^## What a refusal says\n(.*?)(?=^## |\Z)', read('README.md'), re.M | re.S)
    rows = re.findall(r'^\|(.*)\|$', section.group(1) if section else '', re.M)[2:]
    table = {}
    for row in rows:
        number, sentence = [cell.strip() for cell in row.split('|', 1)]
        if not number.isdigit() or int(number) in table:
            differ('README.md: a row of refusals has the number "%s", or two have it', number)
        else:
            table[int(number)] = sentence
    for number in sorted(set(range(1, 18)) - set(table)):
        differ('README.md has no row of refusal %d', number)
    for number, sentence in table.items():
        if number in range(1, 18):
            hold_sentence(number, sentence, sentences, 'README.md')
        else:
            differ('README.md has a row of refusal %d, and wear.h has none', number)
    hold_sentence(0, ACCEPTED, sentences, 'header.py')
    for number in UNUSED:
        hold_sentence(number, NO_REFUSAL, sentences, 'header.py')
    print('%d sentences held to README.md' % len(table))


def hold_words(sentences):
    """The sentences that the programs print, each in its arm of a match by its name in refusal.rt, or behind a test for its number."""
    names, numbers = cases_of(REFUSALS, 'Refusal'), set()
    for pattern, tested, sentence in ARM.findall(re.sub(r'^\s*//.*', '', read(WORDS) or '', flags=re.M)):
        number = UNUSED[0] if pattern in ('_', 'Err(_)') else value_of(pattern or tested, names)
        if number not in sentences:
            differ('%s: what the arm %s stands for cannot be told', WORDS, pattern or tested)
        else:
            numbers.add(number)
            hold_sentence(number, sentence, sentences, WORDS)
    for number in sorted({*range(18), UNUSED[0]} - numbers):
        differ('%s has no arm for refusal %d', WORDS, number)
    print('%d sentences held to %s' % (len(numbers), WORDS))


def hold_example(values, fresh):
    """The example in Rust cannot include the header: its module `wear` has the header's numbers once more, and no others."""
    module = re.search(r'^mod wear \{\n(.*?)^\}', read(EXAMPLE), re.M | re.S).group(1)
    page = re.search(r'const FRESH_PAGE: \[u8; FRESH_OCTETS\] = \[([^\]]*)\];', module)
    if not page or [int(octet) for octet in page.group(1).split(',')] != fresh:
        differ('%s has another FRESH_PAGE than wear.h', EXAMPLE)
    constants = values_in(EXAMPLE)
    names = [PREFIX + constant for constant in constants_of(module) if constant != 'FRESH_PAGE']
    for name in names:
        if name in values:
            hold(values, name, {EXAMPLE: constants}, EXAMPLE)
        else:
            differ('%s has %s; wear.h has no %s', EXAMPLE, name[len(PREFIX):], name)
    print('%d names of wear.h held to %s' % (len(names), EXAMPLE))
    hold_functions(functions_in(module, OF_EXAMPLE), EXAMPLE)


def judge(path):
    values, sentences, fresh = seen(path)
    enums = header_enums()
    cases = cases_of(REFUSALS, 'Refusal')
    refusals = {in_capitals(case): value_of(expression, cases) for case, expression in cases.items()}
    hold_all(values, [name for name in enums['refusals'] if name != 'WEAR_ACCEPTED'], REFUSALS, refusals)
    hold_doors(values, enums)
    hold_all_functions()
    hold_page(values, fresh)
    hold_readme(sentences)
    hold_words(sentences)
    hold_example(values, fresh)
    print('\n'.join(differences + ['%d differences' % len(differences)]))
    return 1 if differences else 0


if sys.argv[1:] == ['program']:
    program()
elif len(sys.argv) == 3 and sys.argv[1] == 'judge':
    sys.exit(judge(sys.argv[2]))
else:
    sys.exit(__doc__)

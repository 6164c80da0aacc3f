#!/usr/bin/env python3
"""Brings the names of definitions and lemmas to one spelling: words in snake case, types in camel case, a dash only between two names.

usage: python3 tools/respell.py          at the top of the repository, once, behind the kit's own script; --list prints the names and writes nothing

A name is one that a file of specs/ or a file of lemmas of proofs/ declares. It is rewritten in the definitions, proofs, clauses and must-fail edits.
A dash stays where each part that it joins is itself the name of a definition, as in number-octets. Where two names would fall together, the lemma's
gets _lem. Functions of src/, exported names, strings and comments in plain words stay as they are.
"""

import collections
import glob
import os
import re
import sys

STOP = r"\s:(){},.=|;«»\"λ"
DECLARES = re.compile(rf"^(\s*)((?:(?:abbrev|unfoldable|opaque|instance|pub)\s+)*)(?:(record|data)\s+)?([^{STOP}]+)((?:\s+[({{][^=]*?)?)\s*:(?:\s(.*))?$")
ALONE = re.compile(rf"^\s*(?:(?:abbrev|unfoldable|opaque|instance|pub)\s+)*([^{STOP}]+)\s*$")
WORDS = {"let", "use", "where", "elim", "in", "mod", "module", "unfolding", "pub", "record", "data", "×", "⊎", "→"}
TOKEN = re.compile(r"--[^\n]*|//[^\n]*|\"(?:[^\"\\]|\\.)*\"|[A-Za-z_][\w'-]*")

# the parts that std or the logic names, of which a dash may join two
OF_STD = set("length take drop set get_or append map replicate suc zero sum Octets".split())


def files(*of):
    return sorted(p for one in of for p in glob.glob(one, recursive=True) if "/out/" not in p)


def read(path):
    with open(path, encoding="utf-8") as it:
        return it.read()


def declared():
    """Each declared name: whether it is a type, and whether a file of specs/ has it."""
    out = collections.OrderedDict()
    for path in files("crates/*/specs/**/*.antt", "crates/*/proofs/**/*.antt"):
        if os.path.basename(path) in ("Proof.antt", "Lib.antt"):
            continue
        lines = read(path).split("\n")
        for i, line in enumerate(lines):
            if line.strip().startswith("--"):
                continue
            m, kind, name, of = DECLARES.match(line), None, None, ""
            if m:
                kind, name, of = m[3], m[4], m[6] or ""
                if not of and i + 1 < len(lines):
                    of = lines[i + 1].strip()
            elif (m := ALONE.match(line)) and i + 1 < len(lines) and lines[i + 1].strip().startswith(":"):
                name, of = m[1], lines[i + 1].strip()
            if not name or name in WORDS:
                continue
            k = i + 1
            while k < len(lines) and lines[k].strip().startswith("→"):
                of, k = of + " " + lines[k].strip(), k + 1
            is_type = kind is not None or bool(re.search(r"(^|→|\))\s*Type \d\s*$", of)) and bool(re.search(r"\b(abbrev|unfoldable|opaque)\b|^pub|^\s", line))
            was = out.get(name, (False, False, False))
            out[name] = (was[0] or is_type, was[1] or "/specs/" in path, was[2] or "/proofs/" in path)
    return out


def snake(word):
    return re.sub(r"([a-z0-9])([A-Z])", lambda m: m[1] + "_" + m[2].lower(), word)


def camel(word):
    return "".join(p[:1].upper() + p[1:] for p in re.split(r"[-_]", word))


def spelled(name, it, names):
    if it[0]:
        return camel(name) if not re.fullmatch(r"[A-Z][A-Za-z0-9']*", name) else name
    known = lambda part: part in names or part in OF_STD or snake(part) in OF_STD
    parts, out = name.split("-"), ""
    for i, part in enumerate(parts):
        joins = i and (parts[0][:1].isupper() or known("-".join(parts[:i])) and known("-".join(parts[i:])))
        out += ("" if not i else "-" if joins else "_") + (part if part[:1].isupper() else snake(part))
    return out


def table(names):
    new, taken = {}, collections.defaultdict(list)
    for name, it in names.items():
        new[name] = spelled(name, it, names)
        taken[new[name]].append(name)
    for to, of in taken.items():
        if len(of) < 2:
            continue
        # a definition keeps the plain name, and a lemma gets _lem
        lemmas = [n for n in of if not names[n][1]]
        defs = [n for n in of if names[n][1]]
        keep = defs[:1] or [n for n in of if n == to][:1] or lemmas[:1]
        for n in of:
            if n not in keep:
                new[n] = to + "_lem"
    return new


FIELD = re.compile(r"[a-z][\w'-]*\.$|[)\]]\.$|\d\.$")


def turned(text, new, path):
    out, last, aliases = [], 0, set(re.findall(r"\bas ([\w-]+)", text))
    for m in TOKEN.finditer(text):
        word = m[0]
        if word.startswith(("--", "//", '"')):
            if not word.startswith('"'):
                word = re.sub(r"`([A-Za-z_][\w'-]*)`", lambda k: "`" + new.get(k[1], k[1]) + "`", word)
                word = re.sub(r"\b[a-z]+[a-z0-9]*[A-Z]\w*", lambda k: new.get(k[0], k[0]), word)
        elif code(text, m, path) and not word[:1].isupper() and re.fullmatch(r"[a-z_0-9]+", word):
            pass
        elif word in new and not (FIELD.search(text[max(0, m.start() - 60) : m.start()]) and word not in FIELDS and not of_alias(text, m, aliases)):
            word = new[word]
        out += [text[last : m.start()], word]
        last = m.end()
    return "".join(out) + text[last:]


FIELDS = set()


def of_alias(text, m, aliases):
    """Whether the word stands behind a name that the file gave to a module."""
    before = re.search(r"(?<![\w.'-])([\w-]+)\.$", text[max(0, m.start() - 60) : m.start()])
    return bool(before) and before[1] in aliases


def code(text, m, path):
    """In a source file: whether the word stands outside of clauses and of ghost items."""
    if not path.endswith((".rt", ".edit")):
        return False
    before = text[: m.start()]
    at = max(before.rfind("requires {"), before.rfind("ensures {"), before.rfind("ghost use"), before.rfind("ghost invariant"))
    if at < 0:
        return True
    part = before[at:]
    if part.startswith("ghost use"):
        return ";" in part
    deep = 0
    for c in part[part.index("{") :]:
        deep += (c == "{") - (c == "}")
        if not deep:
            return True
    return False


def fields():
    for path in files("crates/*/specs/**/*.antt", "crates/*/proofs/**/*.antt"):
        inside = False
        for line in read(path).split("\n"):
            if re.match(r"\s*(pub\s+)?record\b", line):
                inside = True
            elif line and not line[0].isspace():
                inside = False
            elif inside and (m := re.match(rf"\s+pub ([^{STOP}]+)\s*:", line)):
                FIELDS.add(m[1])


def main(argv):
    names = declared()
    fields()
    new = {a: b for a, b in table(names).items() if a != b}
    if "--list" in argv:
        for a, b in new.items():
            print(a, b)
        return 0
    everything = files("crates/*/specs/**/*.antt", "crates/*/proofs/**/*.antt", "crates/*/src/**/*.rt", "crates/*/must-fail/*.edit")
    for path in everything:
        text = read(path)
        after = turned(text, new, path)
        if after != text:
            with open(path, "w", encoding="utf-8") as it:
                it.write(after)
    print(f"respell: {len(new)} names")
    return 0


if __name__ == "__main__":
    raise SystemExit(main(sys.argv[1:]))

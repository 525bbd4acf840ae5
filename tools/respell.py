#!/usr/bin/env python3
"""Brings the repository's own definitions and lemmas to the kit's spelling: words in snake case, types in camel case.

usage: tools/respell.py [--list] [FOLDER]

It was run once, after the kit's own port. A lemma that would then have a definition's name gets `_lem` behind it.
A name is the repository's own where a file of specs/ or proofs/ declares it at the head of a line. A word
`partDue` or `part-due` becomes `part_due`, a type `Item-fault` becomes `ItemFault`. It turns the names in specs/ and proofs/, and in the clauses and
`ghost use` lines of src/: no function, exported name, string, input or output. Two names that would fall together are told, and then nothing is written.
--list prints each old and new name.
"""

import glob
import os
import re
import sys

DECLARED = re.compile(r"^\s*(?:(?:abbrev|unfoldable|pub|data|record|ruleset)\s+)*([^\s(){};,:=.]+(?:\s+[^\s(){};,:=.]+)*)\s*:\s")
LAID_DOWN = re.compile(r"^\s*(?:(?:pub|data|record|ruleset)\s+)+([^\s(){};,:=.]+)")
# Where two names would fall together, by hand; the last two with constructors of `Time`.
BY_HAND = {"asKey": "as_key_of", "asValue": "as_value_of", "binaryPart": "binary_part_of", "stringPart": "string_part_of",
           "P-list": "p_list", "Local-date": "LocalDateText", "Local-time": "LocalTimeText"}
TOKEN = re.compile(r"[^\s(){}\[\];,.@«»\"`λ]+")
IMPORTED = re.compile(r"^use ([^\s{;]+?)\.\{([^}]*)\}", re.M)


def spelt(name):
    """The name in the kit's spelling."""
    if "◌" in name or not re.search(r"[a-z₀-₉0-9A-Z][-A-Z]", name):
        return name
    if name[0].isupper():
        return "".join(part[:1].upper() + part[1:] for part in name.split("-")) if "-" in name else name
    name = re.sub(r"(?<=[a-z0-9])(?=[A-Z])|(?<=[A-Z])(?=[A-Z][a-z])", "_", name)
    name = re.sub(r"(?<=_)[A-Z]+", lambda m: m.group(0).lower(), name)
    return re.sub(r"(?<=[^-])-(?=[^-])", "_", name)


def antt_files(top):
    return sorted(glob.glob(top + "/crates/*/specs/**/*.antt", recursive=True) + glob.glob(top + "/crates/*/proofs/**/*.antt", recursive=True))


def uncommented(text):
    return re.sub(r"(?m)(^|\s)--(\s.*)?$", "", text)


def own_names(top):
    crates = [os.path.basename(p) for p in glob.glob(top + "/crates/*")]
    mine = re.compile(r"Rattle\.(" + "|".join(crates) + r")\b")
    own, lent = {}, {}
    for path in antt_files(top):
        with open(path, encoding="utf-8") as f:
            text = uncommented(f.read())
        for module, items in IMPORTED.findall(text):
            if not mine.match(module):
                for item in items.split(","):
                    lent.setdefault(item.split(" as ")[0].strip(), set()).add(path)
        for line in text.split("\n"):
            if "tie.Need" in line or "-lts.Need" in line:
                continue
            for found in (DECLARED.match(line), LAID_DOWN.match(line)):
                if found:
                    for name in found.group(1).split():
                        own.setdefault(name, set()).add(path)
    return own, lent


def table_of(top):
    own, lent = own_names(top)
    table, clashes = {}, []
    for name in sorted(own):
        new = BY_HAND.get(name, spelt(name))
        if new != name and name not in lent:
            table[name] = new
    # A lemma that would have its definition's name gets `_lem`.
    first = {}
    for name in own:
        first.setdefault(table.get(name, name), []).append(name)
    for new, olds in first.items():
        if len(olds) > 1:
            olds.sort(key=lambda n: (not re.search(r"[a-z][A-Z]", n), not any("/specs/" in p for p in own[n]), "-" in n))
            for name in olds[1:]:
                table[name] = new + "_lem"
    taken = {}
    for name in own:
        taken.setdefault(table.get(name, name), set()).add(name)
    for new, olds in sorted(taken.items()):
        if len(olds) > 1:
            clashes.append((new, sorted(olds), [sorted(own[o])[:2] for o in sorted(olds)]))
        elif new in lent and new not in own:
            clashes.append((new, sorted(olds), [sorted(lent[new])[:2]]))
    return table, clashes


def table_at(text, table):
    """The table for one file: a name that was in snake case before turns only where the file declares or imports it."""
    code = uncommented(text)
    here = set()
    for module, items in IMPORTED.findall(code):
        here.update(item.split(" as ")[0].strip() for item in items.split(","))
    for line in code.split("\n"):
        for found in (DECLARED.match(line), LAID_DOWN.match(line)):
            if found:
                here.update(found.group(1).split())
    return {old: new for old, new in table.items() if "-" in old or re.search(r"[a-z][A-Z]", old) or old in here}


def turned(text, table):
    def one(m):
        word = m.group(0)
        return table.get(word, word)
    return TOKEN.sub(one, text)


def turn_antt(text, table):
    out = []
    for line in text.split("\n"):
        found = re.search(r"(^|\s)--(\s|$)", line)
        code, note = (line[: found.start()], line[found.start():]) if found else (line, "")
        note = re.sub(r"`[^`]*`", lambda m: turned(m.group(0), table), note)
        note = TOKEN.sub(lambda m: table.get(m.group(0), m.group(0)) if re.search(r"[a-z][A-Z]", m.group(0)) else m.group(0), note)
        out.append(re.sub(r"(?<!tie\.)(?<!lts\.)" + TOKEN.pattern, lambda m: table.get(m.group(0), m.group(0)), code) + note)
    return "\n".join(out)


def turn_rt(text, table):
    def ghost(m):
        return turned(m.group(0), table)
    text = re.sub(r"(?ms)^\s*ghost use .*?;", ghost, text)
    out, at = [], 0
    for m in re.finditer(r"(?m)^\s*(?:requires|ensures|ghost)\*?(?:\s+\w+:?)?\s*\{", text):
        if m.start() < at:
            continue
        depth, end = 1, m.end()
        while depth:
            string = re.match(r'"(?:[^"\\\n]|\\.)*"', text[end:])
            depth += 0 if string else {"{": 1, "}": -1}.get(text[end], 0)
            end += string.end() if string else 1
        out.append(text[at:m.start()])
        out.append(turned(text[m.start():end], table))
        at = end
    return "".join(out) + text[at:]


def main():
    given = [a for a in sys.argv[1:] if a != "--list"]
    top = given[0] if given else os.path.join(os.path.dirname(os.path.realpath(__file__)), "..")
    table, clashes = table_of(top)
    if "--list" in sys.argv:
        for old, new in table.items():
            print(f"{old}\t{new}")
        return
    for new, olds, where in clashes:
        print(f"respell: {' and '.join(olds)} would be {new}: {where}", file=sys.stderr)
    if clashes:
        raise SystemExit(1)
    changed = 0
    for path in antt_files(top) + sorted(glob.glob(top + "/crates/*/src/**/*.rt", recursive=True)):
        with open(path, encoding="utf-8") as f:
            text = f.read()
        here = table_at(text, table)
        new = turn_antt(text, here) if path.endswith(".antt") else turn_rt(text, here)
        if new != text:
            with open(path, "w", encoding="utf-8") as f:
                f.write(new)
            changed += 1
    print(f"respell: {len(table)} names, {changed} files")


if __name__ == "__main__":
    main()

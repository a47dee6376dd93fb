#!/usr/bin/env python3
"""Brings the repository's own definitions, lemmas and record fields to the spelling of names of the kit: words in snake case, types in upper
camel case, and a dash only between two names.

usage: tools/respell_names.py           at the top of the repository, once, after the kit's port.py; rewrites crates/ in place
       tools/respell_names.py --modules after that, once: the lemmas that stand in a module of a file
       tools/respell_names.py --pages   rewrites the names in README.md, CONTRIBUTING.md and docs/ by the table that the first run kept

The table of all names, old and new, goes to tools/respelled.tsv. Functions of src/, exported names, strings and what the check generates
(goals, steps, statements) keep their names.
"""

import os
import re
import sys

TABLE = "tools/respelled.tsv"
# tactics of the kit, whose names a definition may not have, and words that PORTING.md spells otherwise
BY_HAND = {"first_of": "first_of_month", "linesOfRules": "LinesOfRules"}
CAMEL = re.compile(r"^[a-z][a-z0-9]*(?:[A-Z][a-z0-9]*)+'*$")
DECLARED = re.compile(r"^(?:(?:pub|abbrev|unfoldable) +)*([^\s:(){}\-][^\s:(){}]*) *:\s")
NAMED = re.compile(r"^(?:pub +)?(?:data|record) +(\S+)")
FIELD = re.compile(r"^ +(?:pub +)?([^\s:(){}\-|][^\s:(){}]*) +: ")
TOKEN = re.compile(r"[^\s(){}\[\],;:@|\"«».]+")
# names of the library that lemmas are named after
WORDS = set("""length take drop map sum get_or set append replicate reverse filter cond take_while any all sum_by cons min max div mod
add sub mul pow suc pos negsuc nat_abs true false eqb leb ltb""".split())


def snake(word):
    return re.sub(r"([A-Z])", lambda m: "_" + m.group(1).lower(), word)


def files(*ends):
    for folder, dirs, names in os.walk("crates"):
        dirs[:] = sorted(d for d in dirs if d != "out")
        for f in sorted(names):
            if f.endswith(ends):
                yield os.path.join(folder, f)


def read(path):
    with open(path, encoding="utf-8") as f:
        return f.read()


def declared():
    """The names that are declared: definitions of specs/, then lemmas, then fields; not what answers a generated statement."""
    terms, lemmas, fields = set(), set(), set()
    for path in files(".antt"):
        text = re.sub(r"--.*", "", read(path))
        in_record = False
        for line in text.split("\n"):
            named = NAMED.match(line)
            if named:
                terms.add(named.group(1))
            if line and not line[0].isspace():
                in_record = bool(named)
            found = DECLARED.match(line)
            if found and not re.match(r".*: *(?:\{.*\} *→ *)?(?:tie\.|statement\b)", line):
                ((terms if "/specs/" in path else lemmas)).add(found.group(1))
            found = FIELD.match(line)
            if found and in_record:
                fields.add(found.group(1))
    return terms, lemmas, fields


def words_of(name):
    """A dashed name: each part in snake case, and a dash only where names stand on both sides."""
    return [BY_HAND.get(p, snake(p) if CAMEL.match(p) else p) for p in name.split("-")]


def joined(name, known):
    parts = words_of(name)
    out = parts[0]
    for i, part in enumerate(parts[1:], 1):
        both = (out in known or parts[i - 1] in known) and part in known
        out += ("-" if both else "_") + part
    return out


def table():
    terms, lemmas, fields = declared()
    known = {"_".join(words_of(t)) for t in terms | fields} | WORDS
    taken = {"_".join(words_of(n)) for n in terms | lemmas | fields if "-" not in n}
    new = {}
    for name in sorted(terms | lemmas | fields):
        if "-" in name:
            turned = joined(name, known)
            # a lemma that would have its function's name
            new[name] = turned + "_lem" if turned in taken else turned
    return {a: b for a, b in new.items() if a != b}, terms | lemmas, fields


def in_modules():
    """The dashed names that are declared inside a module of a file, but for fields, and each name that is declared at all."""
    found, all_names = set(), set()
    for path in files(".antt"):
        in_record = False
        for line in re.sub(r"(?m)(^|\s)--(\s.*|$)", "", read(path)).split("\n"):
            if line and not line[0].isspace():
                in_record = bool(NAMED.match(line))
            at = re.match(r"^( *)(?:(?:pub|abbrev|unfoldable) +)*([^\s:(){}\-|.][^\s:(){}.]*) :(?: |$)", line)
            if at:
                all_names.add(at.group(2))
                if at.group(1) and not in_record and "-" in at.group(2) and not path.endswith("Answers.antt"):
                    found.add(at.group(2))
    return found, all_names


def respell(text, dashed, fields):
    """Each token of the code, by the table or from camel to snake case; of a comment, what stands in backticks and camel case. A projection
    of a generated record keeps its name."""

    def one(m):
        word = m.group(0)
        before = m.string[m.start() - 1] if m.start() else ""
        if word in BY_HAND and before not in (".", ":"):
            return BY_HAND[word]
        if word in dashed and (before != "." or word in fields):
            return dashed[word]
        if "-" in word and before != ".":
            return "-".join(words_of(word))
        return snake(word) if CAMEL.match(word) else word

    at = re.search(r"(?:^|\s)--(?:\s|$)", text)
    code, comment = (text[: at.start()], text[at.start() :]) if at else (text, "")
    return TOKEN.sub(one, code) + re.sub(r"`[^`]+`", lambda m: TOKEN.sub(one, m.group(0)), TOKEN.sub(lambda m: snake(m.group(0)) if CAMEL.match(m.group(0)) else m.group(0), comment))


def in_code(line, path):
    """A line of a source or of an edit: camel case is a definition's there, but in a string."""
    if '"' in line:
        return line
    line = re.sub(r"[A-Za-z_][A-Za-z0-9_']*", lambda m: snake(m.group(0)) if CAMEL.match(m.group(0)) else m.group(0), line)
    if "/calendar/" in path and re.search(r"ghost use|requires|ensures|specs", line):
        line = re.sub(r"\bfirst_of\b(?! *\()", "first_of_month", line)
    return line


def main():
    if sys.argv[1:] == ["--pages"]:
        new = dict(l.rstrip("\n").split("\t") for l in open(TABLE, encoding="utf-8"))
        for top in ("README.md", "CONTRIBUTING.md", "docs"):
            paths = [top] if os.path.isfile(top) else [os.path.join(d, f) for d, _, fs in os.walk(top) for f in fs if f.endswith(".md")]
            for path in paths:
                write(path, re.sub(r"`[^`\n]+`", lambda m: "`" + TOKEN.sub(lambda w: new.get(w.group(0), w.group(0)), m.group(0)[1:-1]) + "`", read(path)))
        return 0
    if sys.argv[1:] == ["--modules"]:
        terms, _, fields = declared()
        found, all_names = in_modules()
        known = terms | fields | WORDS
        new = {}
        for name in found:
            turned = joined(name, known)
            if turned != name:
                new[name] = turned + "_lem" if turned in all_names else turned
        for path in files(".antt"):
            write(path, "\n".join(respell(l, new, set()) for l in read(path).split("\n")))
        with open(TABLE, "a", encoding="utf-8") as f:
            f.writelines(f"{a}\t{b}\n" for a, b in sorted(new.items()))
        return 0
    dashed, names, fields = table()
    functions = {f for path in files(".rt") for f in re.findall(r"\bfn +(\w+)", read(path))}
    own_fields = {f for f in fields if f in dashed and f.replace("-", "_") not in functions}
    for path in files(".antt", ".rt", ".edit"):
        turn = (lambda l: respell(l, dashed, own_fields)) if path.endswith(".antt") else (lambda l: in_code(l, path))
        write(path, "\n".join(turn(l) for l in read(path).split("\n")))
    with open(TABLE, "w", encoding="utf-8") as f:
        for a in sorted(names | fields):
            b = BY_HAND.get(a, dashed.get(a, snake(a) if CAMEL.match(a) else a))
            if a != b:
                f.write(f"{a}\t{b}\n")
    return 0


def write(path, text):
    if text != read(path):
        with open(path, "w", encoding="utf-8") as f:
            f.write(text)


if __name__ == "__main__":
    raise SystemExit(main())

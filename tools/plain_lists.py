#!/usr/bin/env python3
"""Clauses say `x.old`, `x.new` and `x.now` of what is lent: in place of `was x`, `left x` and `lent ..` of the older Rattle, in which a
`&` and a `&mut` had one type in a clause. Run once at the top of the repository, after tools/respell_names.py --modules."""

import os
import re

TABLES = "element_data prices links holders states readings blocks lines sent".split()


def balanced(text, at, pair):
    depth = 0
    for i in range(at, len(text)):
        if text[i] == pair[0]:
            depth += 1
        elif text[i] == pair[1]:
            depth -= 1
            if depth == 0:
                return i + 1
    raise ValueError(text[at : at + 80])


def kinds(params):
    """Of each parameter by its name: 'mut', 'ref' or 'value'."""
    out = {}
    for m in re.finditer(r"(\w+)\s*:\s*(&(?:'\w+ )?mut\b|&)?", params):
        out[m.group(1)] = {"&": "ref", None: "value"}.get(m.group(2) and re.sub(r"'\w+ ", "", m.group(2)), "mut")
    return out


def clause(text, kind, ensures):
    def at(name, when):
        if kind.get(name) == "mut":
            return f"{name}.{when}"
        return f"{name}.now" if kind.get(name) == "ref" else f"{name}.MEND"

    for word, when in (("was", "old"), ("left", "new")):
        text = re.sub(r"\(" + word + r" (\w+)\)", lambda m: at(m.group(1), when), text)
        text = re.sub(r"\b" + word + r" (\w+)\b", lambda m: at(m.group(1), when) if m.group(1) in kind else m.group(0), text)
    names = r"((?: (?:" + "|".join(TABLES) + r")){9})"

    def given(listed, when):
        return "given " + " ".join(at(n, when) for n in listed.split())

    def lent(m):
        pad = "\n        "
        return f"let before = {given(m.group(1), 'old')} in{pad}let after = {given(m.group(1), 'new')} in"

    text, n = re.subn(r"let t = lent" + names + r" in", lent, text)
    if n:
        text = re.sub(r"\bt\.entry\b", "before", re.sub(r"\bt\.exit\b", "after", text))
    return re.sub(r"\bgiven" + names, lambda m: given(m.group(1), "old"), text)


def turn(text):
    out, at = [], 0
    for m in re.finditer(r"\bfn \w+(?:<[^>]*>)?\(", text):
        if m.start() < at:
            continue
        end = balanced(text, m.end() - 1, "()")
        kind = kinds(text[m.end() : end - 1])
        out.append(text[at:end])
        at = end
        while True:
            c = re.compile(r"(?:\s*->\s*[^\n{]+?(?=\s*\n|\s*\{))?\s*(?:requires|ensures)(?: \w+)? (?=\{)").match(text, at)
            if not c:
                break
            stop = balanced(text, c.end(), "{}")
            out.append(text[at : c.end()] + clause(text[c.end() : stop], kind, "ensures" in c.group(0)))
            at = stop
    out.append(text[at:])
    return "".join(out)


def main():
    for folder, dirs, names in os.walk("crates"):
        dirs[:] = [d for d in dirs if d != "out"]
        for f in names:
            if f.endswith(".rt"):
                path = os.path.join(folder, f)
                with open(path, encoding="utf-8") as it:
                    text = it.read()
                turned = turn(text)
                turned = re.sub(r"(ghost use Rattle\.rules\.specs\.Lent\.\{)([^}]*)\}", lambda m: m.group(1) + ", ".join(n for n in m.group(2).split(", ") if n not in ("was", "left", "lent", "given")) + (", given" if "given element_data" in turned and re.search(r"\b(given|lent)\b", m.group(2)) else "") + "}", turned)
                turned = re.sub(r"ghost use Rattle\.rules\.specs\.Lent\.\{(?:, )?\};\n", "", turned).replace("Lent.{, ", "Lent.{")
                if turned != text:
                    with open(path, "w", encoding="utf-8") as it:
                        it.write(turned)


if __name__ == "__main__":
    main()

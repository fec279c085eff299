#!/usr/bin/env python3
"""Spells the repository's own definitions, lemmas, fields and variables in snake case, as today's Rattle spells words.

usage: snake_names.py [ROOT]      once, on what port.py wrote; a second run changes nothing

isZero and sum-product become is_zero and sum_product. Types, facts and modules keep their capitals, functions of src/ and
what a library outside the repository names keep their spelling. A lemma that would have a definition's name ends in _lem.
It turns crates/*/specs, crates/*/proofs, the contracts in crates/*/src and crates/*/must-fail/*.edit, and, between
backticks, README.md and docs/*.md. It prints the names of a function's parameters that a turned name of its contract meets.
"""
import collections
import glob
import os
import re
import sys

WORD = r"[a-z][\w'’-]*"
TOKEN = re.compile(r"--[^\n]*|\"(?:[^\"\\]|\\.)*\"|[^\s(){}.;,@\"«»\[\]\\]+")
RUST = re.compile(r"//[^\n]*|b?\"(?:[^\"\\]|\\.)*\"|b?'(?:[^'\\]|\\.)'|[^\s(){}.;,@\"«»\[\]\\:&!?|]+")
USE = re.compile(r"\buse (\S+?)\.?\{([^}]*)\}")
DECLARED = re.compile(r"(?m)^( *)(?:(?:pub|abbrev|unfoldable|ruleset|private) )*(" + WORD + r")(?: \{[^{}\n]*\})* :(?= |$)")
OWN = {"aNaN": "a_nan"}
# a lemma that would have the name of a library's definition that its file imports
BESIDE = {"is-nan"}


def read(path):
    with open(path, encoding="utf-8") as f:
        return f.read()


def snake(name):
    if name in OWN:
        return OWN[name]
    return re.sub(r"(?<=[a-z0-9])[A-Z]", lambda m: "_" + m[0].lower(), name).replace("-", "_")


def turns(name):
    return re.fullmatch(WORD, name) and snake(name) != name


def below(root, part, end):
    return sorted(glob.glob(f"{root}/crates/*/{part}/**/*{end}", recursive=True))


def outside(text, crates):
    """The names that a file takes from a library outside the repository."""
    out = set()
    for path, names in USE.findall(text):
        steps = path.split(".")
        if steps[0] != "Rattle" or steps[1] not in crates:
            for it in names.split(","):
                out.update(it.strip().split(" as "))
    return out


def main():
    root = sys.argv[1] if len(sys.argv) > 1 else "."
    crates = {os.path.basename(c) for c in glob.glob(f"{root}/crates/*")}
    specs, proofs = below(root, "specs", ".antt"), below(root, "proofs", ".antt")
    texts = {p: read(p) for p in specs + proofs}
    ext = {p: outside(t, crates) for p, t in texts.items()}
    declared, defined, fields = set(), set(), set()
    for p, t in texts.items():
        for indent, name in DECLARED.findall(t):
            declared.add(name)
            if not indent and p in specs:
                defined.add(snake(name))
        for block in re.findall(r"(?ms)^ *(?:pub )?record [A-Z].*?(?=\n\n|\Z)", t):
            fields.update(re.findall(r"(?m)^ +(?:pub )?(" + WORD + r")(?: \{[^{}\n]*\})* :", block))
    # the words that stand somewhere as they are: a dashed name that would become one of them is a lemma beside it
    plain = set(defined)
    for p, t in texts.items():
        for m in TOKEN.finditer(t):
            it = m[0]
            if re.fullmatch(WORD, it) and "-" not in it and "_" in snake(it) and it not in ext[p] and t[m.start() - 1] != ".":
                if not re.search(r"(?m)^\s*(?:pub )?use [^\n{]*\Z", t[t.rfind("\n", 0, m.start()) + 1 : m.start()]):
                    plain.add(snake(it))

    # lemmas that port.py spelled as a definition is spelled now
    spelled = {snake(it) for p in specs for _, it in DECLARED.findall(texts[p]) if "-" not in it and turns(it)}
    respelled = {it for p in proofs for _, it in DECLARED.findall(texts[p]) if it in spelled and it not in fields}

    def new(name):
        if name in respelled:
            return name + "_lem"
        s = snake(name)
        return s + "_lem" if name in BESIDE or "-" in name and s in plain and name not in fields else s

    def turned(text, names, walk, token):
        def one(m):
            it = m[0]
            if it.startswith("--") or it.startswith("//"):
                return re.sub(r"(?<![\w-])" + WORD + r"(?![\w-])", lambda w: new(w[0]) if w[0] in declared and turns(w[0]) and ("-" not in w[0]) else w[0], it)
            if it.startswith(("\"", "b\"", "b'", "'")) or it in names:
                return it
            if it in respelled and walk is not None:
                line = text[text.rfind("\n", 0, m.start()) + 1 : m.start()]
                return it if text[m.start() - 1] == "." or re.match(r"(pub )?use [^{]*\Z", line) else new(it)
            if not turns(it):
                return it
            # a field, read or written, never meets a definition
            dot = text[m.start() - 1 : m.start()] == "."
            label = re.search(r"[{;]\s*\Z", text[max(0, m.start() - 80) : m.start()]) and text.startswith((" =", " :"), m.end())
            if label:
                return snake(it)
            if dot and it not in fields:
                return it
            if token is RUST and it not in declared:
                return it
            return snake(it) if dot else new(it)

        return token.sub(one, text)

    changed = 0
    moved = collections.OrderedDict()
    for p, t in texts.items():
        now = turned(t, ext[p], p if p in proofs else None, TOKEN)
        for it in set(re.findall(WORD, t)):
            if turns(it) and it not in ext[p] and new(it) != snake(it) and re.search(r"(?<![\w.-])" + re.escape(new(it)), now):
                moved.setdefault(it, []).append(p[len(root) + 8 :])
        if now != t:
            open(p, "w", encoding="utf-8").write(now)
            changed += 1
    for p in below(root, "src", ".rt"):
        t = read(p)
        now = turned(t, outside(t, crates), None, RUST)
        if now != t:
            open(p, "w", encoding="utf-8").write(now)
            changed += 1
        for m in re.finditer(r"(?s)\bfn (\w+)[^(]*\((.*?)\)(.*?)\n\{", t):
            for it in set(re.findall(r"(\w+):", m[2])) & {snake(w) for w in re.findall(r"[\w'-]+", m[3]) if turns(w) and w in declared}:
                print(f"look: {p}: {m[1]}: the parameter {it} hides a turned name")
    for p in below(root, "must-fail", ".edit"):
        lines = []
        for line in read(p).split("\n"):
            if line.startswith(("old:", "new:")):
                line = turned(line, set(), None, TOKEN if "specs/" in read(p) or "proofs/" in read(p) else RUST)
            lines.append(line)
        now = "\n".join(lines)
        if now != read(p):
            open(p, "w", encoding="utf-8").write(now)
            changed += 1
    for p in [f"{root}/README.md", *sorted(glob.glob(f"{root}/docs/**/*.md", recursive=True))]:
        t = read(p)
        named = lambda m: re.sub(r"(?<![\w-])" + WORD + r"(?![\w-])", lambda w: new(w[0]) if w[0] in declared and turns(w[0]) else w[0], m[0])
        now = re.sub(r"`[^`\n]+`", named, t)
        if now != t:
            open(p, "w", encoding="utf-8").write(now)
            changed += 1
    for old, where in moved.items():
        print(f"look: {old} is {new(old)}, beside a definition or a variable {snake(old)}: {' '.join(where[:3])}")
    print("look: respelled beside a definition:", *sorted(respelled))
    print(f"{changed} files turned")


main()

#!/usr/bin/env python3
# Counts the places of src/ that docs/DESIGN-PASS.md speaks of, point by point, and names them: design_places.py [TOP] [POINT].
# A place is what the page calls one: an enum, a function, a loop, a signature. It looks at the text of crates/*/src alone.
import glob
import re
import sys

TOP = sys.argv[1] if len(sys.argv) > 1 else "."
ONLY = sys.argv[2] if len(sys.argv) > 2 else ""


def sources():
    for path in sorted(glob.glob(TOP + "/crates/*/src/**/*.rt", recursive=True)):
        yield path.split("/crates/")[1].replace("/src/", "/"), open(path).read()


def code(text):  # without comments
    return re.sub(r"//[^\n]*", "", text)


def block(text, at):  # the braces that open at or after a place
    start = text.index("{", at)
    depth = 0
    for i in range(start, len(text)):
        depth += {"{": 1, "}": -1}.get(text[i], 0)
        if depth == 0:
            return text[start : i + 1]
    return text[start:]


def functions():
    for path, text in sources():
        for m in re.finditer(r"\bfn (\w+)(?:<[^(]*>)?\(", code(text)):
            yield path, m.group(1), code(text), m.end()


def params(text, at):
    depth, parts, part = 1, [], ""
    for ch in text[at:]:
        if ch in "([<{":
            depth += 1
        if ch in ")]>}" and not (ch == ">" and part.endswith("-")):
            depth -= 1
            if depth == 0:
                break
        if ch == "," and depth == 1:
            parts.append(part)
            part = ""
        else:
            part += ch
    parts.append(part)
    return [p.strip() for p in parts if p.strip()]


def enums():  # point 1: each enum, the structs with a flag beside a value, and the numbers that stand for a status
    for path, text in sources():
        for m in re.finditer(r"^(?:pub(?:\(crate\))? )?enum (\w+)", text, re.M):
            yield path, "enum " + m.group(1)
        for m in re.finditer(r"^(?:pub(?:\(crate\))? )?struct (\w+)[^{;]*\{", text, re.M):
            body = block(text, m.start())
            if re.search(r"\b(exact|found|valid|ok): bool", body):
                yield path, "flag in struct " + m.group(1)
        for m in re.finditer(r"\bRefused\(u8\)|\bstatus: u8\b|const [A-Z_]+: u8 = \d+;", code(text)):
            yield path, "number " + m.group(0)
        if "/" in path:
            for m in re.finditer(r"fn (\w*(?:check|failing|align|table)\w*)\([^)]*\) -> u8", code(text)):
                yield path, "number answered by " + m.group(1)


def twins():  # point 2: names that differ only in a type's size, or that the page lists as pairs
    stems = {}
    for path, name, _, _ in functions():
        crate = path.split("/")[0]
        stem = re.sub(r"(?<=[a-z_])(u8|u16|u32|u64|i32|i64|f32|f64|8|16|32|64)(?=s?$|_|s$)", "#", name)
        if stem != name:
            stems.setdefault((crate, stem), set()).add(name)
    for (crate, stem), names in sorted(stems.items()):
        if len(names) > 1:
            yield crate, " ".join(sorted(names))


def loops():  # point 3: a while whose body steps a variable by one
    for path, text in sources():
        c = code(text)
        for m in re.finditer(r"\bwhile ([^{]*)\{", c):
            body = block(c, m.end() - 1)
            stepped = re.findall(r"\b(\w+) [+-]= 1;", body)
            if any(re.search(r"\b%s\b" % v, m.group(1)) for v in stepped):
                fn = re.findall(r"\bfn (\w+)", c[: m.start()])[-1]
                yield path, fn + ": while " + m.group(1).strip()


def whiles():  # every while, for the other way of counting
    for path, text in sources():
        for m in re.finditer(r"\bwhile ([^{]*)\{", code(text)):
            fn = re.findall(r"\bfn (\w+)", code(text)[: m.start()])[-1]
            yield path, fn + ": while " + m.group(1).strip()


def by_hand():  # point 4: an impl of a trait that a derive writes, and conversions with a function of their own
    for path, text in sources():
        for m in re.finditer(r"\bimpl (PartialEq|Eq|PartialOrd|Ord|Clone|Copy|Debug|Default)\b[^{]*", code(text)):
            yield path, m.group(0).strip()
        for m in re.finditer(r"\bfn (of_\w+|number|signed|low32|zero|canonical|\w+_to_\w+|widen)\(", code(text)):
            yield path, "conversion " + m.group(1)


def travelling():  # point 5: a function of seven parameters or more
    for path, name, text, at in functions():
        n = len(params(text, at))
        if n >= 7:
            yield path, "%s, %d parameters" % (name, n)


def buffers():  # point 6: a function that answers how much it filled, or that takes a length beside its slice
    for path, name, text, at in functions():
        ps = params(text, at)
        head = text[at : text.index("{", at)]
        muts = [p for p in ps if "&mut [" in p]
        if len(muts) >= 2 and re.search(r"\b(places|values|len|dot)\b", " ".join(muts)):
            yield path, name + ": parallel " + ", ".join(p.split(":")[0] for p in muts)
        elif muts and re.search(r"-> usize", head) and any(p.startswith(("at:", "n:")) for p in ps):
            yield path, name + ": buffer with its length beside"


def switches():  # point 7: a match on which kind of work to do
    for path, text in sources():
        c = code(text)
        for m in re.finditer(r"\bmatch (model|self|r?\.?op|op)\b", c):
            fn = re.findall(r"\bfn (\w+)", c[: m.start()])[-1]
            yield path, fn + ": match " + m.group(1)


POINTS = [("1", enums), ("2", twins), ("3", loops), ("3-all", whiles), ("4", by_hand), ("5", travelling), ("6", buffers), ("7", switches)]
for name, find in POINTS:
    if ONLY and ONLY != name:
        continue
    places = list(find())
    print("point %s: %d places" % (name, len(places)))
    if ONLY:
        for path, what in places:
            print("  %s: %s" % (path, what))

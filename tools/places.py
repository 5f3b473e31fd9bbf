#!/usr/bin/env python3
"""Counts the places of docs/DESIGN-PASS.md in src/, point by point: tools/places.py [FOLDER] [--list]

Each count is taken from the text of src/ (point 8: of proofs/) alone, so that anybody can take it again."""
import glob
import os
import re
import sys

ROOT = next((a for a in sys.argv[1:] if not a.startswith("-")), ".")
LIST = "--list" in sys.argv
FN = re.compile(r"^( *)(?:pub(?:\(crate\))? )?(?:unsafe )?(?:extern \"C\" )?fn (\w+)", re.M)


def sources():
    for f in sorted(glob.glob(os.path.join(ROOT, "crates/*/src/*.rt"))):
        yield os.path.relpath(f, os.path.join(ROOT, "crates")).replace("/src", ""), open(f).read()


def bare(text):
    return re.sub(r"//[^\n]*", "", text)


def functions(text):
    """name, parameters, body"""
    starts = list(FN.finditer(text))
    for m, nxt in zip(starts, starts[1:] + [None]):
        end = nxt.start() if nxt else len(text)
        part = text[m.start():end]
        p = part.index("(")
        q = close(part, p, "(", ")")
        body = re.compile(r"^ *\{ *$|\{ *$", re.M).search(part, q)
        if not body:
            continue
        start = part.index("{", body.start())
        yield m.group(2), re.sub(r"\s+", " ", part[p + 1:q]), part[start:close(part, start, "{", "}") + 1]


def close(text, i, left, right):
    depth = 0
    while i < len(text):
        depth += {left: 1, right: -1}.get(text[i], 0)
        if depth == 0:
            return i
        i += 1
    return i


def point_1():
    found = []
    for f, s in sources():
        s = bare(s)
        for m in re.finditer(r"^ *(?:pub )?enum (\w+)[^{]*\{(.*?)^ *\}", s, re.S | re.M):
            units = re.findall(r"^\s+(\w+),$", m.group(2), re.M)
            loads = re.findall(r"^\s{4}(\w+)\s*[({]", m.group(2), re.M)
            if (units and loads) or "Bad" in units or "Refused" in loads:
                found.append("%s enum %s" % (f, m.group(1)))
        for m in re.finditer(r"^ *(?:pub )?struct (\w+)[^{;]*\{(.*?)^ *\}", s, re.S | re.M):
            for n in re.findall(r"\b(over|found|taken|cut|tag|number|kind|form|wrap|style): (?:bool|u8|u32|usize)", m.group(2)):
                found.append("%s struct %s.%s" % (f, m.group(1), n))
        for name, params, _ in functions(s):
            for n in re.findall(r"\b(m|form|kind|wrap|style|number|tag): (?:u8|u32|usize)", params):
                found.append("%s fn %s(%s)" % (f, name, n))
    return found


def shape(body):
    names, out = {}, []
    for t in re.findall(r"[A-Za-z_]\w*(?:::\w+)*|\d+|b?\"[^\"]*\"|b?'[^']*'|\S", body):
        if re.match(r"[A-Za-z_]", t) and t not in KEEP:
            t = names.setdefault(t, "x%d" % len(names))
        elif re.match(r"\d|b?[\"']", t):
            t = "#"
        out.append(t)
    return " ".join(out)


KEEP = set("let mut if else match while loop for in return break continue as true false Some None Ok Err Self self len".split())


def point_2():
    groups = {}
    for f, s in sources():
        for name, params, body in functions(bare(s)):
            if len(body) > 90:
                groups.setdefault((shape(params), shape(body)), []).append("%s %s" % (f, name))
        for m in re.finditer(r"^ *(?:pub )?struct (\w+)[^{;]*\{(.*?)^ *\}", bare(s), re.S | re.M):
            fields = tuple(re.sub(r"\[\w+;", "[_;", x) for x in re.findall(r"(?:pub )?(\w+: [^,\n]+)", m.group(2)))
            groups.setdefault(("struct", fields), []).append("%s %s" % (f, m.group(1)))
            if fields[:1] == ("n: usize",):
                groups.setdefault(("struct", "counted"), []).append("%s %s" % (f, m.group(1)))
    return ["twins: " + ", ".join(g) for g in groups.values() if len(g) > 1]


def point_3():
    found = []
    for f, s in sources():
        s = bare(s)
        for m in re.finditer(r"^ *(?:'\w+: )?(while(?! let)|loop)\b[^\n]*", s, re.M):
            name = FN.findall(s[:m.start()])[-1][1]
            found.append("%s %s: %s" % (f, name, m.group(0).strip()))
    return found


def point_4():
    found = []
    for f, s in sources():
        for name, _, _ in functions(bare(s)):
            if re.match(r"(same|is_same|less|copy|minus|least|known_|as_maybe|maybe_below|or_empty|given$|span$|narrow|style_number|number_of|code_of)", name):
                found.append("%s %s" % (f, name))
    return found


def point_5():
    found = []
    for f, s in sources():
        for name, params, _ in functions(bare(s)):
            names = re.findall(r"(?:^|, )(?:mut )?(\w+):", params)
            line = " ".join(names)
            for a, b in (("out", "at"), ("files", "area"), ("job", "index"), ("job", "nums"), ("vars", "nv"), ("over", "from")):
                if re.search(r"\b%s %s\b" % (a, b), line):
                    found.append("%s %s(%s, %s)" % (f, name, a, b))
    return found


def point_6():
    found = []
    for f, s in sources():
        for name, params, _ in functions(bare(s)):
            for m in re.finditer(r"(\w+): &(?:'a )?(?:mut )?\[u32\], (n|m|nv|count|k): usize", params):
                found.append("%s %s(%s, %s)" % (f, name, m.group(1), m.group(2)))
        for m in re.finditer(r"^ *(?:pub )?struct (\w+)[^{;]*\{[^}]*\bn: usize,[^}]*\ball: ", bare(s), re.M):
            found.append("%s struct %s" % (f, m.group(1)))
    return found


def point_7():
    found = []
    for f, s in sources():
        for name, _, body in functions(bare(s)):
            steps = len(re.findall(r"^\s+\d+ => ", body, re.M)) + len(re.findall(r"\bif (?:m|j|k|kind|number) == ", body))
            if steps > 2:
                found.append("%s %s: %d steps" % (f, name, steps))
    return found


def point_8():
    found = []
    for f in sorted(glob.glob(os.path.join(ROOT, "crates/*/proofs/**/Answers.antt"), recursive=True)):
        n = len(re.findall(r"^pub ", open(f).read(), re.M))
        found += [os.path.relpath(f, os.path.join(ROOT, "crates"))] * n
    return found


for k, places in enumerate((point_1, point_2, point_3, point_4, point_5, point_6, point_7, point_8), 1):
    all_places = places()
    print("point %d: %d" % (k, len(all_places)))
    if LIST and k < 8:
        for p in all_places:
            print("    " + p)

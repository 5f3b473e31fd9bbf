#!/usr/bin/env python3
"""Brings the repository's own definitions, laws and fields to today's spelling: words in snake case, types and modules in camel case.

usage: python3 tools/respell.py [--dry|--list]      at the top of the repository, once, after the toolchain's port.py

A name of specs/ or proofs/ that has a dash or a capital inside, and is no type or module, gets underscores: isDigit and is-digit become is_digit.
Where a definition and a law of it would get one name, the definition keeps it and the law gets _lem behind it.
A name that a file takes from a library stays there. Names of src/, exported C names, strings and comments of old proofs stay.
In must-fail/*.edit, tests/edits and the tables of docs/ the names are turned in the same way.
"""

import collections
import os
import re
import sys

NAME = r"[^\s(){}\[\],;.:]"
SIGNATURE = re.compile(r"^(\s*)((?:pub |abbrev |unfoldable )*)((?:%s+\s+)*?%s+)\s+:(?=\s|$)" % (NAME, NAME))
TOKEN = re.compile(r"[A-Za-z_][A-Za-z0-9_'′₀-₉-]*[A-Za-z0-9_'′₀-₉]|[A-Za-z_]")
OLD = re.compile(r"[a-z][A-Za-z0-9_'-]*$")
# a law whose file takes the function itself from a library
BESIDE = {"flat-map": "flat_map_lem"}
# names whose signatures have another form
MORE = {
    "onSome": "on_some", "namePut": "name_put", "recordText": "record_text", "nameStep": "name_step", "declKind": "decl_kind",
    "tableNamed": "table_named", "intentAfter": "intent_after", "intentRead": "intent_read", "inFiles": "in_files", "logRead": "log_read",
    "Due-step": "DueStep", "map-same₂": "map_same₂", "g₁-is": "g₁_is", "not_lF": "not_lf", "notLF": "not_lf",
}


def files(*endings):
    for folder, dirs, names in os.walk("crates"):
        # what the toolchain made, and not the crate of that name
        dirs[:] = sorted(d for d in dirs if d != "out" or folder == "crates")
        for name in sorted(names):
            if name.endswith(endings):
                yield os.path.join(folder, name)


def read(path):
    with open(path, encoding="utf-8") as f:
        return f.read()


def definitions():
    """Each name that specs/ or proofs/ define, with the kinds of its definitions; answers of old proofs are left out."""
    found = collections.defaultdict(set)
    for path in files(".antt"):
        old = path.endswith("Proof.antt")
        record = None
        for line in read(path).split("\n"):
            text = line.strip()
            if text.startswith(("--", "use ")):
                continue
            depth = len(line) - len(line.lstrip())
            if text and record is not None and depth <= record:
                record = None
            if re.match(r"(?:pub )?record ", text):
                record = depth
            kind = re.match(r"(?:pub )?(record|data|ruleset|module) (?:pub )?(%s+)" % NAME, text)
            if kind:
                found[kind[2]].add(kind[1])
                continue
            it = SIGNATURE.match(line)
            if it and not old and not re.search(r"[=→]", it[3]):
                for name in it[3].split():
                    found[name].add("name" if record is None else "field")
    return found


def snake(name):
    return "_".join(re.sub(r"(?<=[a-z0-9])([A-Z])", lambda m: "_" + m[1].lower(), it) if it[:1].islower() else it for it in name.split("-"))


def table(found):
    """Old name to new name."""
    groups = collections.defaultdict(list)
    for name, kinds in found.items():
        if OLD.match(name) and not kinds & {"record", "data", "module"}:
            groups[snake(name)].append(name)
    turned = {}
    for new, olds in groups.items():
        # a field is named behind a dot or in a record alone, so it may have a definition's name
        for name in olds:
            if found[name] == {"field"} and name != new:
                turned[name] = new
        olds = [name for name in olds if found[name] != {"field"}]
        # a definition has a capital inside; a law has dashes; what has neither was turned before
        rank = lambda name: 0 if re.search("[A-Z]", name) and "-" not in name else 1 if "-" not in name else 2
        for i, name in enumerate(sorted(olds, key=lambda name: (rank(name), name))):
            to = new if i == 0 else new + "_lem" * i
            if to in found and to != name and i > 0:
                raise SystemExit(f"respell: {name}: {to} is taken")
            if to != name:
                turned[name] = to
    return turned | BESIDE | MORE


def own(module, crates):
    parts = module.split(".")
    return parts[0] == "Rattle" and len(parts) > 1 and parts[1] in crates


def foreign(text, crates):
    """The names that the file takes from libraries."""
    taken = set()
    for it in re.finditer(r"^\s*(?:ghost )?use ([^\s{;]+?)\.\{([^}]*)\}", text, re.M):
        if not own(it[1], crates):
            for name in it[2].split(","):
                taken.add(name.split(" as ")[-1].strip())
    return taken


def turn_text(text, turned, but=()):
    def one(it):
        before = text[: it.start()]
        if re.search(r"(?:\btie|\bgoal|proofs(?:\.\w+)+)\.$", before[-80:]):
            return it[0]
        return it[0] if it[0] in but else turned.get(it[0], it[0])

    return TOKEN.sub(one, text)


def turn_comment(text, turned, but):
    """In prose a name counts where it stands in backticks, or has a capital inside."""
    text = re.sub(r"`[^`\n]*`", lambda it: turn_text(it[0], turned, but), text)
    return TOKEN.sub(lambda it: turned[it[0]] if it[0] in turned and it[0] not in but and re.search("[a-z][A-Z]", it[0]) else it[0], text)


def turn_antt(path, turned, crates):
    text = read(path)
    but = foreign(text, crates)
    old = path.endswith("Proof.antt")
    out = []
    for line in text.split("\n"):
        at = re.search(r"(^|\s)--(\s|$)", line)
        code, comment = (line[: at.start()], line[at.start() :]) if at else (line, "")
        code = re.sub(r'[^"]+|"[^"]*"', lambda it: it[0] if it[0].startswith('"') else turn_text(it[0], turned, but), code)
        out.append(code + (comment if old else turn_comment(comment, turned, but)))
    return text, "\n".join(out)


def regions(text):
    """The parts of a source file that are read as antt: clauses, ghost items, ghost fields."""
    for it in re.finditer(r"ghost use [^;]*;|^\s*ghost (?!use)[^;{]*;|\b(?:requires|ensures)\*?(?: \w+)? \{|\bghost \w+[^;{]*\{", text, re.M):
        end = it.end()
        if text[end - 1] == "{":
            depth = 1
            while depth:
                depth += {"{": 1, "}": -1}.get(text[end], 0)
                end += 1
        yield it.start(), end


def turn_rt(path, turned, crates):
    text = read(path)
    but = foreign(text, crates)
    out, at = [], 0
    for start, end in regions(text):
        if start < at:
            continue
        out += [turn_source_prose(text[at:start], turned, but), turn_text(text[start:end], turned, but)]
        at = end
    return text, "".join(out) + turn_source_prose(text[at:], turned, but)


def turn_source_prose(text, turned, but):
    return re.sub(r"(?m)//.*$", lambda it: turn_comment(it[0], turned, but), text)


def turn_edit(path, turned, crates):
    text = read(path)
    antt = re.search(r"^file: \S+\.antt", text, re.M)
    out = []
    for line in text.split("\n"):
        if line.startswith(("old: ", "new: ")):
            if antt or re.search(r"\b(requires|ensures|ghost)\b", line):
                line = line[:5] + turn_text(line[5:], turned)
        elif not line.startswith("file: "):
            line = turn_comment(line, turned, ())
        out.append(line)
    return text, "\n".join(out)


def edits():
    yield from files(".edit")
    for folder, _, names in os.walk("tests/edits"):
        for name in sorted(names):
            if name.endswith(".edit"):
                yield os.path.join(folder, name)


def pages():
    yield "README.md"
    for name in sorted(os.listdir("docs")):
        if name.endswith(".md"):
            yield os.path.join("docs", name)


def main():
    dry = "--dry" in sys.argv
    crates = {name for name in os.listdir("crates") if os.path.isdir(os.path.join("crates", name, "src"))}
    found = definitions()
    turned = table(found)
    if "--list" in sys.argv:
        print(*(f"{old} {new}" for old, new in sorted(turned.items())), sep="\n")
        return
    changed = 0
    for path in [*files(".antt"), *files(".rt"), *edits(), *pages()]:
        if path.endswith(".antt"):
            text, new = turn_antt(path, turned, crates)
        elif path.endswith(".rt"):
            text, new = turn_rt(path, turned, crates)
        elif path.endswith(".edit"):
            text, new = turn_edit(path, turned, crates)
        else:
            text = read(path)
            new = turn_comment(text, turned, ())
        if path.endswith((".antt", ".rt")):
            look(path, text, new, turned, crates)
        if new != text:
            changed += 1
            if not dry:
                with open(path, "w", encoding="utf-8") as f:
                    f.write(new)
    print(f"respell: {len(turned)} names, {changed} files")


def look(path, text, new, turned, crates):
    """Says where a turned name may meet another of its file: one from a library, or a variable."""
    but = foreign(text, crates)
    used = {it[0] for it in TOKEN.finditer(text)}
    for name in sorted(used & turned.keys()):
        if name not in but and turned[name] in but:
            print(f"look: {path}: {name} turned to {turned[name]}, which the file takes from a library")
        elif name in but:
            if re.search(r"use Rattle\.\w+[^\n]*[{ ,]%s[,}]" % re.escape(name), text):
                pass
        elif turned[name] in used:
            print(f"look: {path}: {name} turned to {turned[name]}, which the file had")


if __name__ == "__main__":
    main()

#!/usr/bin/env python3
"""Brings the repository's own definitions and lemmas to one spelling: words in snake case, types and facts in camel case.

usage: python3 tools/respell.py [--dry]      at the top of the repository, once, right after port.py

A name is the repository's own if a file of specs/ declares it, or a lemma file of proofs/, at the head of a line. Where it has a dash,
or a capital inside a word, it is spelled anew: Writes-by becomes WritesBy, begun-in becomes begun_in. What Rattle makes of the sources
(the labels of goals and of steps in Answers and Invariants) stays, and so do strings, comments and the names of Rust items.
A name that would meet one that is there already gets the ending of MEETS. Lines that begin 'meets:' say what falls together.
"""
import collections
import os
import re
import sys

NAME = r"[A-Za-z][\w'\-]*"
TOKEN = re.compile(r"(?<![\w'\-])" + NAME + r"(?![\w'\-])")
HEAD = re.compile(r"^(\s*)((?:(?:pattern|unfoldable|abbrev|pub|data|record)\s+)*)(" + NAME + r"(?: +" + NAME + r")*)\s*(?=[({:])")
GENERATED = re.compile(r"/(Answers|Invariants|Proof)\.antt$")

# new names for those whose plain spelling is taken
MEETS = {"Too-small": "IsTooSmall"}
# names that stay: they are not the repository's own where they are used
STAY = set()


def files(*endings):
    for top in ("crates", "audit"):
        for folder, dirs, names in os.walk(top):
            dirs[:] = sorted(d for d in dirs if d != "out")
            for n in sorted(names):
                if n.endswith(endings):
                    yield os.path.join(folder, n)


def read(path):
    with open(path, encoding="utf-8") as f:
        return f.read()


def code_of(line):
    """The line without its comment."""
    at = re.search(r"(^|\s)--(\s|$)", line)
    return line[: at.start()] if at else line


def respelled(name):
    if name in MEETS:
        return MEETS[name]
    if name[0].isupper():
        return "".join(w[:1].upper() + w[1:] for w in re.split(r"[-_]", name))
    return re.sub(r"(?<=[a-z0-9])[A-Z]", lambda m: "_" + m[0].lower(), name).replace("-", "_")


def declared():
    """Own names, and those of them that are fields of records or constructors."""
    own, inner = collections.defaultdict(set), set()
    for path in files(".antt"):
        generated = GENERATED.search(path)
        for line in read(path).split("\n"):
            m = HEAD.match(code_of(line))
            if not m or m[3] in ("let", "in", "where", "use", "mod", "module", "elim", "record", "data"):
                continue
            if generated and (m[1] or "pub" in m[2].split()):
                continue
            for name in m[3].split():
                own[name].add(path)
                if m[1]:
                    inner.add(name)
        for m in re.finditer(r"\bas (" + NAME + r")", read(path)):
            if "-" in m[1]:
                own[m[1]].add(path)
    for path in files(".rt"):
        for m in re.finditer(r"(?m)^ghost use [^;]*;", read(path)):
            own.update({name: {path} for name in re.findall(r"\bas (" + NAME + r")", m[0]) if "-" in name})
    return own, inner


def libraries(text):
    """The names that a file brings in from elsewhere than this repository."""
    found = set()
    for m in re.finditer(r"(?m)^\s*(?:ghost )?(?:pub )?use ([\w.'\-]+?)\.?\{([^}]*)\}", text):
        steps = m[1].split(".")
        mine = steps[0] == "Rattle" and len(steps) > 1 and os.path.isdir(os.path.join("crates", steps[1]))
        if not mine:
            found |= {w.split(" as ")[-1].strip() for w in m[2].split(",")}
    return found


def turn_antt(path, text, renames, inner):
    generated = GENERATED.search(path)
    alien = libraries(text)
    labels = set(re.findall(r"(?m)^pub (" + NAME + r") : (?:goal|need|given)\.", text)) if generated else set()
    out = []
    for line in text.split("\n"):
        code = code_of(line)
        rest = line[len(code):]

        def swap(m):
            name = m[0]
            if name not in renames or name in alien:
                return name
            before = code[: m.start()]
            if before.endswith("."):
                owner = re.search(r"([\w'\-]+)\.$", before)
                if re.match(r"^\s*(?:pub )?use ", code) or (owner and owner[1] in ALIASES.get(path, ())):
                    return renames[name]
                return renames[name] if name in inner else name
            if generated and name in labels:
                return name
            return renames[name]

        out.append(TOKEN.sub(swap, code) + rest)
    return "\n".join(out)


def ghost_spans(text):
    """Where clauses, ghost items and imports of clauses stand in a source."""
    spans = []
    for m in re.finditer(r"\b(?:ghost|requires\*?|ensures\*?|invariant)\b[^{};\n]*[{]", text):
        depth, i = 1, m.end()
        while i < len(text) and depth:
            depth += {"{": 1, "}": -1}.get(text[i], 0)
            i += 1
        spans.append((m.start(), i))
    for m in re.finditer(r"(?m)^ghost use [^;]*;", text):
        spans.append((m.start(), m.end()))
    return spans


def turn_rt(text, renames):
    spans = ghost_spans(text)
    alien = libraries(text)

    def swap(m):
        name = m[0]
        if name not in renames or name in alien or not any(a <= m.start() < b for a, b in spans):
            return name
        return renames[name]

    return TOKEN.sub(swap, text)


def turn_edit(text, renames):
    return TOKEN.sub(lambda m: renames.get(m[0], m[0]) if "-" in m[0] or m[0] in MEETS else m[0], text)


ALIASES = {}

# A word of the library under the name of another is refused: it goes by its own name.
OWN_WORDS = [("AllByRecursion", "All")]


def by_own_word(path, text):
    for word, alias in OWN_WORDS:
        if f"{word} as {alias}" not in text:
            continue
        text = text.replace(f"{word} as {alias}", word)
        spans = ghost_spans(text) if path.endswith(".rt") else None
        out = []
        at = 0
        for line in text.split("\n"):
            code = line if spans is not None else code_of(line)
            swap = lambda m: word if m[0] == alias and (spans is None or any(a <= at + m.start() < b for a, b in spans)) else m[0]
            out.append(TOKEN.sub(swap, code) + line[len(code):])
            at += len(line) + 1
        text = "\n".join(out)
    return text


def aliases(text):
    """Names by which a file calls modules of this repository's specs and proofs, but for those that Rattle makes."""
    found = set()
    for m in re.finditer(r"(?m)^\s*(?:ghost )?use (Rattle\.[\w.'\-]+?) as ([\w'\-]+)", text):
        steps = m[1].split(".")
        if os.path.isdir(os.path.join("crates", steps[1])) and steps[-1] not in ("Goals", "Given", "Needs"):
            found.add(m[2])
    return found


def rewrite(paths, turn):
    for path in list(paths):
        text = read(path)
        new = turn(path, text)
        if new != text:
            with open(path, "w", encoding="utf-8") as f:
                f.write(new)


def main():
    dry = "--dry" in sys.argv
    own, inner = declared()
    renames = {}
    for name in own:
        if name in STAY:
            continue
        new = respelled(name)
        if new != name:
            renames[name] = new
    there = collections.defaultdict(set)
    for path in files(".antt", ".rt"):
        text = read(path)
        ALIASES[path] = aliases(text)
        for m in TOKEN.finditer(text):
            there[m[0]].add(path)
    back = collections.defaultdict(set)
    for old, new in renames.items():
        back[new].add(old)
    for new, olds in sorted(back.items()):
        if len(olds) > 1:
            print(f"meets: {sorted(olds)} would all be {new}")
        if new in there:
            near = sorted(there[new])
            print(f"meets: {sorted(olds)} -> {new}, there already in {near[:6]}{' ..' if len(near) > 6 else ''}")
    print(f"{len(renames)} names")
    if dry:
        return
    rewrite(files(".antt"), lambda path, text: turn_antt(path, text, renames, inner))
    rewrite(files(".rt"), lambda path, text: turn_rt(text, renames))
    rewrite(files(".antt", ".rt"), by_own_word)
    rewrite(files(".edit"), lambda path, text: turn_edit(text, renames))


main()

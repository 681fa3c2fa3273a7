#!/usr/bin/env python3
"""Spells the project's own definitions and lemmas as today's library does: words in snake case, plain words joined by `_`, and a dash
only where a lemma names the outer call first, as `length-pasted`. A lemma that would have its function's name gets `_lem`.

usage: python3 tools/respell.py [--check]      at the top, once, after port.py

It turns proof files, specs, the clauses of sources, must-fail edits, and the code spans of README.md and docs/ (not of docs/landings, which
tell what was). Functions of src/, exported names, strings, inputs and outputs stay. It says which names fall together in a file.
"""
import collections
import os
import re
import sys

WORD = re.compile(r'[^\s(){}.;,@"«»]+')
DECLARED = re.compile(r'^ *(?:abbrev |unfoldable |opaque )*(?:pub )?([^\s(){}.;,@"«»]+)(?: \{[^{}\n]*\})* :')
CAMEL = re.compile(r"[a-z].*[a-z0-9'][A-Z]")
# Functions that a lemma names first, before the call inside them.
OUTER = ("length", "take", "drop", "map")


def snake(name):
    return re.sub(r"(?<=[a-z0-9'])([A-Z])", lambda m: "_" + m.group(1).lower(), name)


def bare(text):
    return re.sub(r"--[^\n]*", "", text)


def files(ending):
    for folder, dirs, names in os.walk("crates"):
        dirs[:] = sorted(d for d in dirs if d != "out")
        for name in sorted(names):
            if name.endswith(ending):
                yield os.path.join(folder, name)


def declarations(text):
    return {m.group(1) for m in map(DECLARED.match, bare(text).split("\n")) if m}


def of_one_function(path):
    return os.path.basename(path) == "Proof.antt"


def table(texts):
    words = set().union(*(WORD.findall(bare(t)) for t in texts.values()))
    rows = {w: snake(w) for w in words if CAMEL.match(w)}
    own = set(os.listdir("crates"))
    library = set()
    for text in texts.values():
        for path, names in re.findall(r"^use ([^\s{]+)\.\{([^}]*)\}", bare(text), re.M):
            steps = path.split(".")
            if steps[0] != "Rattle" or steps[1] not in own:
                library |= {n.strip().split(" as ")[0] for n in names.split(",")}
    shared, defined = set(), set()
    for path, text in texts.items():
        if not of_one_function(path):
            shared |= declarations(text)
        if "/specs/" in path:
            defined |= {rows.get(n, n) for n in declarations(text)}
    taken = defined | {n for n in shared if "-" not in n and n not in rows}
    for name in sorted(n for n in shared if re.match(r"[a-z].*-", n) and n not in library):
        head, rest = snake(name).split("-", 1)
        joined = rest.replace("-", "_")
        new = head + ("-" if head in OUTER and joined in defined else "_") + joined
        rows[name] = new + "_lem" if new in taken else new
    return rows


def turn(text, rows):
    return WORD.sub(lambda m: rows.get(m.group(0), m.group(0)), text)


def spans(text, rows):
    return re.sub(r"`([^`\n]+)`", lambda m: "`" + turn(m.group(1), rows) + "`", text)


def antt(text, rows, steps=()):
    """Behind a dot a proof of one function names steps by the functions called: these stay."""
    def word(m):
        step = m.start() and m.string[m.start() - 1] == "." and m.group(0).replace("-", "_") in steps
        return m.group(0) if step else rows.get(m.group(0), m.group(0))

    def line(l):
        code, dashes, comment = l.partition("--")
        return WORD.sub(word, code) + dashes + spans(comment, rows)

    return "\n".join(map(line, text.split("\n")))


def rt(text, rows):
    camel = {old: new for old, new in rows.items() if CAMEL.match(old)}

    def line(l):
        code, slashes, comment = l.partition("//")
        if '"' not in code:
            code = re.sub(r"[\w']+", lambda m: camel.get(m.group(0), m.group(0)), code)
        return code + slashes + spans(comment, rows)

    return "\n".join(map(line, text.split("\n")))


def main():
    check = "--check" in sys.argv
    texts = {p: open(p, encoding="utf-8").read() for p in files(".antt")}
    rows = table(texts)
    for path, text in texts.items():
        met = collections.defaultdict(set)
        for word in set(WORD.findall(re.sub(r"\bRattle(\.[^\s.{;]+)+", "", bare(text)))):
            met[rows.get(word, word)].add(word)
        for new, old in sorted(met.items()):
            if len(old) > 1:
                print("falls together:", path, new, *sorted(old))
    sources = {p: open(p, encoding="utf-8").read() for p in files(".rt")}
    functions = set(re.findall(r"\bfn (\w+)", "\n".join(sources.values())))
    turned = {p: antt(t, rows, functions if of_one_function(p) else ()) for p, t in texts.items()}
    for path, text in sources.items():
        turned[path] = rt(text, rows)
    for path in files(".edit"):
        text = open(path, encoding="utf-8").read()
        turned[path] = antt(text, rows) if re.search(r"^file: (?:specs|proofs)/", text, re.M) else rt(text, rows)
    pages = ["README.md"] + sorted(os.path.join("docs", n) for n in os.listdir("docs") if n.endswith(".md"))
    for path in pages:
        turned[path] = spans(open(path, encoding="utf-8").read(), rows)
    for path, text in turned.items():
        if not check:
            with open(path, "w", encoding="utf-8") as file:
                file.write(text)
    for old, new in sorted(rows.items()):
        print(old, new, sep="\t")


if __name__ == "__main__":
    main()

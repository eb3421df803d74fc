#!/usr/bin/env python3
"""Spells the names that the crates' own definitions, lemmas and fields have in snake case: `labelSize` and `every-at` become `label_size` and
`every_at`. It was run once, after the toolchain's own script, in the commit that brought the repository to this Rattle; docs/PORT.md says more.

usage: tools/snake_names.py     at the top of the repository

It goes by whole words: in .antt files, in the clauses and `ghost use` items of .rt files, in must-fail edits, in the wrong programs, and in the
code spans of the documents. A name that a file imports from a library stays there. Functions of src/, types, modules and names that the
compiler makes (goals, loops, steps) keep their spelling. A line that begins 'meets:' names two words of one file that would be one.
"""
import os
import re
import sys

WORD = r"[^\s(){}\[\].;,@\"«»`]+"
DECLARED = re.compile(r"^\s*(?:(?:abbrev|unfoldable|opaque|pub|where|let|theorem|lemma)\s+)*(" + WORD + r")(?:\s*\{[^}]*\})*\s+:(?:\s|$)", re.M)
USE = re.compile(r"^\s*(?:pub |ghost |unfoldable )*use ([^\s;{]+?)(?:\.\{([^}]*)\})?(?: as \S+)?;?\s*$", re.M)
CAMEL = re.compile(r"[a-z][a-z0-9]*(?:[A-Z][a-z0-9]*)+'*")
DASHED = re.compile(r"[A-Za-z][A-Za-z0-9_]*(?:-[A-Za-z0-9_]+)+'*")
# What the compiler makes, and what stands behind its dots.
MADE = re.compile(r"(?:returns|invariant|decreases|loop|overflow|cast|add|bounds|slice|offset|Need|After|At|In|Then|Else|the|if\d*|in|match|well)-.*|.*-(?:requires|spec|loop)(?:-\d+)?|statement")


# Lemmas whose words are those of a definition or of the library's: they end in `_lem`, as the library's own do. Fields of that kind say what they hold.
TAKEN = set()
NAMED = {"read-override": "reads_overridden", "name-size": "name_has_size", "abbreviation-size": "abbreviation_has_size"}


def snake(word):
    if word in NAMED:
        return NAMED[word]
    if word in TAKEN:
        return word.replace("-", "_") + "_lem"
    if CAMEL.fullmatch(word):
        word = re.sub(r"(?<=[a-z0-9])([A-Z])|(?<=[A-Z])([A-Z])(?=[a-z])", lambda m: "_" + m[0].lower(), word)
    return word.replace("-", "_")


def read(path):
    with open(path, encoding="utf-8") as f:
        return f.read()


def code(text):
    return re.sub(r"--[^\n]*", "", text)


def files(top, *endings):
    for folder, folders, names in os.walk(top):
        folders[:] = sorted(d for d in folders if d not in ("out", ".git"))
        yield from (os.path.join(folder, n) for n in sorted(names) if n.endswith(endings))


def own_modules():
    return {"Rattle." + c for c in os.listdir("crates")}


def imported(text, own):
    """The names that a file takes from a library."""
    found = set()
    for m in USE.finditer(text):
        if ".".join(m[1].split(".")[:2]) not in own and m[2]:
            found |= {part.split(" as ")[0].strip() for part in m[2].split(",")}
    return found


def declared(own):
    """Every word that an .antt file other than a function's proof declares, and every word in lower camel case that one has."""
    found = set()
    for path in files("crates", ".antt"):
        text = code(read(path))
        found |= {w for w in re.findall(WORD, text) if CAMEL.fullmatch(w)}
        if not path.endswith("/Proof.antt"):
            found |= {w for w in DECLARED.findall(text) if DASHED.fullmatch(w) and not MADE.fullmatch(w)}
    return {w for w in found if snake(w) != w}


def turned(text, words, kept, path):
    before = {w for w in re.findall(WORD, code(text))}
    fresh = {}
    for w in before & words - kept:
        if snake(w) in before - TAKEN or snake(w) in fresh.values():
            print(f"meets: {path}: {w}")
        fresh[w] = snake(w)
    return re.sub(WORD, lambda m: snake(m[0]) if m[0] in words and m[0] not in kept else m[0], text)


def in_clauses(text, words, kept, path):
    """The `ghost use` items and the clauses of a .rt file: a clause's braces nest."""
    out, i = [], 0
    for m in re.finditer(r"ghost use [^;]*;|^\s*(?:requires|ensures)\*?(?: \w+)? \{|//[^\n]*", text, re.M):
        if m.start() < i:
            continue
        end = m.end()
        if m[0].endswith("{"):
            deep = 1
            while deep:
                deep += {"{": 1, "}": -1}.get(text[end], 0)
                end += 1
        out += [text[i : m.start()], turned(text[m.start() : end], words, kept, path)]
        i = end
    return "".join(out + [text[i:]])


def main():
    own = own_modules()
    words = declared(own)
    library = set().union(*(imported(read(p), own) for p in files("crates", ".antt")))
    plain = {snake(w) for w in words if CAMEL.fullmatch(w)} | library
    known = {w for p in files("crates", ".antt") if not p.endswith("/Proof.antt") for w in DECLARED.findall(code(read(p)))}
    # The toolchain's script had given the lemma `framed-of` the words of the definition `framedOf`.
    words.add("framed_of")
    TAKEN.add("framed_of")
    plain |= known
    TAKEN.update(w for w in words if DASHED.fullmatch(w) and snake(w) in plain)
    for w in sorted(TAKEN):
        print(f"taken: {w}")
    for path in files("crates", ".antt", ".rt", ".edit"):
        text = read(path)
        kept = imported(text, own)
        fresh = in_clauses(text, words, kept, path) if path.endswith(".rt") else turned(text, words, kept, path)
        if fresh != text:
            with open(path, "w", encoding="utf-8") as f:
                f.write(fresh)
    names = {snake(w) for w in words}
    for path in files("crates", ".antt"):
        names |= set(DECLARED.findall(code(read(path))))
    pages = ["README.md", *files("docs", ".md"), *files("tests/wrong_programs", ".txt")]
    for path in pages:
        text = read(path)
        line = lambda m: re.sub(WORD, lambda w: snake(w[0]) if (CAMEL.fullmatch(w[0]) or DASHED.fullmatch(w[0])) and snake(w[0]) in names else w[0], m[0])
        fresh = re.sub(r"`[^`\n]*`", line, text) if path.endswith(".md") else re.sub(r"[^\n]+", line, text)
        if fresh != text:
            with open(path, "w", encoding="utf-8") as f:
                f.write(fresh)
    print(f"{len(words)} words")
    return 0


if __name__ == "__main__":
    sys.exit(main())

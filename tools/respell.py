#!/usr/bin/env python3
"""Brings the repository's own definitions and lemmas to today's spelling, after the kit's port.py: words in snake case, a dash only where
the name without it is another's. Run once, at the top. Functions of src/, exported names, strings, inputs and outputs keep their names.

usage: python3 tools/respell.py [--map]      --map prints the renames and writes nothing
"""
import collections
import os
import re
import sys

KIT = "/opt/rattle"
WORD = r"[\w◌'₀-₉]"
TOKEN = re.compile(rf"[A-Za-z_◌]{WORD}*(?:-{WORD}+)*")
# A lemma that port.py gave the name that its function gets here.
APART = {"all_hold": "all-hold", "first_below": "first-below", "chain_length": "chain-length", "way_on": "way-on"}


def files(root, *endings):
    for folder, folders, names in os.walk(root):
        folders[:] = sorted(f for f in folders if f not in ("out", "target", ".git"))
        for name in sorted(names):
            if name.endswith(endings):
                yield os.path.join(folder, name)


def read(path):
    with open(path, encoding="utf-8", errors="replace") as f:
        return f.read()


def snake(name):
    name = re.sub(r"([a-z0-9])([A-Z])", r"\1_\2", name)
    return re.sub(r"([A-Z]+)([A-Z][a-z])", r"\1_\2", name).lower()


def is_camel(token):
    return "-" not in token and bool(re.match(r"[a-z◌]", token)) and bool(re.search(r"[a-z0-9][A-Z]", token))


def bare(text):
    return re.sub(r"--.*", "", text)


def is_lemma_file(path):
    return "/proofs/" in path


def declared(text):
    """Names that a signature at the head of a line declares, also in a section, but for those of goals."""
    for m in re.finditer(rf"^ *(?:pub |abbrev |unfoldable )*({TOKEN.pattern})\s+:(?!\s*(?:tie|goal)\.)", text, re.M):
        yield m.group(1)


def dashes(texts):
    """The dashed lemmas: new names, as {old: new}. A dash stays where the name is taken, mostly by the definition that the lemma is
    about; the proof of a claim has the name of its field."""
    lemmas = {n for p, t in texts.items() if is_lemma_file(p) for n in declared(bare(t)) if "-" in n and not n.endswith("-spec")}
    used = collections.Counter(tok for t in texts.values() for tok in set(TOKEN.findall(t)))
    crates = "|".join(os.listdir("crates"))
    imports = rf"^(?:pub )?use (?!Rattle\.(?:{crates})\.)[^\n{{]*\{{([^}}]*)\}}"
    lemmas -= {n for t in texts.values() for m in re.finditer(imports, t, re.M) for n in TOKEN.findall(m.group(1))}
    claims = {n for p, t in texts.items() if p.endswith("specs/Claims.antt") for n in re.findall(r"pub (\w+) :", bare(t))}
    claims -= {n for t in texts.values() for n in declared(bare(t))}
    new = {}
    for old in sorted(lemmas):
        name = old.replace("-", "_")
        if name not in set(used) - claims and name not in new.values():
            new[old] = name
    return new


def plan():
    library = set()
    for folder in ("rattle", "logic_built"):
        for path in files(os.path.join(KIT, folder), ".antt"):
            library.update(TOKEN.findall(read(path)))
    texts = {p: read(p) for p in files("crates", ".antt")}
    for p in texts:
        texts[p] = turned(texts[p], APART)
    camel = {tok for t in texts.values() for tok in TOKEN.findall(bare(t)) if is_camel(tok)}
    for text in map(read, files("crates", ".rt")):
        camel |= {tok for a, b in ghost_parts(text) if not text[a:b].startswith("//") for tok in TOKEN.findall(text[a:b]) if is_camel(tok)}
    camel -= library
    words = {old: snake(old) for old in sorted(camel)}
    later = {p: turned(t, words) for p, t in texts.items()}
    return words, dashes(later)


def turned(text, words):
    """A dashed name after a dot is Rattle's own, unless a module stands before the dot."""

    def one(m):
        token = m.group(0)
        if token in words:
            if "-" in words[token] or "-" in token:
                before = text[: m.start()]
                if before.endswith(".") and not re.search(r"[A-Z]\w*\.$", before):
                    return token
            return words[token]
        return token

    return TOKEN.sub(one, text)


def ghost_parts(text):
    """The spans of a .rt file that are antt: comments, ghost use items and clauses."""
    spans = []
    for m in re.finditer(r"//[^\n]*|ghost use [^;]*;|\b(?:requires|ensures|ghost|invariant)\b(?: +\w+)?:? *\{", text):
        if m.group(0).endswith("{"):
            depth, k = 1, m.end()
            while depth:
                depth += {"{": 1, "}": -1}.get(text[k], 0)
                k += 1
            spans.append((m.start(), k))
        else:
            spans.append(m.span())
    return spans


def turned_source(text, words):
    """A new name that the Rust of the file has too is imported under the name with _rule."""
    spans = ghost_parts(text)
    rust = "".join(text[a:b] for a, b in zip([0] + [s[1] for s in spans], [s[0] for s in spans] + [len(text)]))
    taken = set(TOKEN.findall(rust))
    rule = {}
    for old in {t for a, b in spans for t in TOKEN.findall(text[a:b]) if not text[a:b].startswith("//")}:
        if old in words and words[old] in taken and not is_field(text, spans, old):
            rule[old] = words[old] + "_rule"
    out, at = [], 0
    for a, b in spans:
        out.append(text[at:a])
        part = text[a:b]
        if part.startswith("ghost use"):
            part = TOKEN.sub(lambda m: (words[m.group(0)] + " as " + rule[m.group(0)]) if m.group(0) in rule else words.get(m.group(0), m.group(0)), part)
        else:
            part = TOKEN.sub(lambda m: rule.get(m.group(0), words.get(m.group(0), m.group(0))), part)
        out.append(part)
        at = b
    out.append(text[at:])
    return "".join(out)


def is_field(text, spans, old):
    """Only ever after a dot in the clauses, so nothing that is imported."""
    return not any(re.search(rf"(?<![.\w'◌]){re.escape(old)}(?![\w'◌])", text[a:b]) for a, b in spans if text[a:b].startswith("ghost use"))


def main(arguments):
    words, lemmas = plan()
    if arguments == ["--map"]:
        for old, new in sorted({**words, **lemmas}.items()):
            print(old, new)
        return 0
    for path in files("crates", ".antt"):
        old = read(path)
        new = turned(turned(turned(old, APART), words), lemmas)
        if new != old:
            with open(path, "w", encoding="utf-8") as f:
                f.write(new)
    for path in files("crates", ".rt"):
        old = read(path)
        new = turned_source(old, words)
        if new != old:
            with open(path, "w", encoding="utf-8") as f:
                f.write(new)
    return 0


if __name__ == "__main__":
    raise SystemExit(main(sys.argv[1:]))

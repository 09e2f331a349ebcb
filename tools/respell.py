#!/usr/bin/env python3
"""Brings this repository's own names in specs/ and proofs/ to the spelling of today's Rattle.

usage: tools/respell.py [--list]      at the top, after /opt/rattle/port/port.py, once; --list only prints the map, old name and new

Words are in snake case, types and modules in camel case. A dash joins two names of definitions, as in `spell-be`; a plain word is
added with an underscore, as in `room_past`. What is declared in specs/ (definitions, fields, constructors) has no dash. Names that come from src/, names of the
library, and the goals' names in a Proof.antt stay. A name whose new form already stands in a file that has the old one keeps its dashes, and is listed as `kept`.
"""
import collections
import os
import re
import sys

NAME = r"[^\s(){}\[\].,;:@λ→×∥⌜⌝\"`|]+"
TOKEN = re.compile(r"[A-Za-zα-κμ-ωΑ-Ω_#][\w'′₀-₉·\-]*")
LIBRARY = set("append length take drop set get_or map add sub mul div mod pow suc zero one nil cons cond true false min max eq ne le lt ltb leb eqb assoc comm".split()) - {"assoc", "comm"}
# names that would fall together with another's: a lemma that would have its definition's name, and a definition with a field's
SPECIAL = {"kept_from": "kept_from_lem", "not_taken": "not_taken_lem", "step_run": "step_run_lem", "step_fits": "step_fits_lem", "fresh_at": "fresh_at_lem", "inSegment": "is_in_segment"}
# variables, and names that an import gives
LOCAL = {"notLong": "not_long", "notMet": "not_met", "startsOf": "starts_of", "notStepped": "not_stepped", "notTold": "not_told"}
RESERVED = set("data record deriving module where use mod pub package open as unfoldable abbrev axiom unfold unfolding ruleset mutual infix infixl infixr elim let in do Type".split())


def files(ends):
    for folder, dirs, names in os.walk("crates"):
        dirs[:] = sorted(d for d in dirs if d != "out")
        for f in sorted(names):
            if f.endswith(ends):
                yield os.path.join(folder, f)


def text(path):
    with open(path, encoding="utf-8") as f:
        return f.read()


def declared(path):
    """The names that a file declares: definitions, lemmas, fields and constructors."""
    for line in re.sub(r"--[^\n]*", "", text(path)).split("\n"):
        m = re.match(r"^\s*(?:(?:abbrev|unfoldable|pub) )*(?:record |data )?(" + NAME + r")(?: [({].*[)}])* : ", line)
        if m and m.group(1) not in RESERVED:
            yield m.group(1)


def snake(word):
    """One word between dashes: camel case becomes snake case, a capital at its head stays."""
    if not re.match(r"[a-z]", word):
        return word
    word = re.sub(r"([a-z0-9])([A-Z])(?=[a-z0-9]|$)", lambda m: m.group(1) + "_" + m.group(2).lower(), word)
    return re.sub(r"([a-z0-9])([A-Z])", lambda m: m.group(1) + "_" + m.group(2).lower(), word)


def joined(name, names, of_spec):
    parts = [snake(p) for p in name.replace("′", "'").split("-")]
    out, chunk = parts[0], parts[0]
    for p in parts[1:]:
        if not of_spec and chunk in names and p in names and re.match(r"[A-Za-z]", p):
            out, chunk = out + "-" + p, p
        else:
            out, chunk = out + "_" + p, chunk + "_" + p
    return out


def changes():
    spec, lemma = set(), set()
    for path in files(".antt"):
        if not path.endswith("/Proof.antt"):
            (spec if "/specs/" in path else lemma).update(declared(path))
    names = {snake(n) for n in spec if "-" not in n} | LIBRARY
    new = {}
    for n in sorted(spec | lemma):
        if "-" in n or "′" in n or re.search(r"^[a-z].*[a-z0-9][A-Z]", n):
            to = joined(n, names, n in spec)
            if to != n:
                new[n] = to
    new.update({n: to for n, to in SPECIAL.items() if n in spec | lemma})
    new.update(LOCAL)
    tokens, proofs, sources = collections.defaultdict(set), {}, {}
    for path in files((".antt", ".rt")):
        t = text(path)
        sources[path] = t
        tokens[path] = set(TOKEN.findall(t))
        if path.endswith("/Proof.antt"):
            proofs[path] = {m for m in declared(path)}
    kept = {}
    # two names that fall together, or a name that stands already in a file that has the old one
    while True:
        bad = set()
        by = collections.defaultdict(set)
        for n, to in new.items():
            by[to].add(n)
        bad |= {n for to, ns in by.items() if len(ns) > 1 or to in spec | lemma and to not in new for n in ns}
        for path, seen in tokens.items():
            for n in seen & new.keys():
                if new[n] in seen and new[n] not in new and not is_function(path, new[n], sources[path]):
                    bad.add(n)
        bad = {n for n in bad if n in new and n not in kept}
        if not bad:
            break
        for n in bad:
            fallback = "-".join(snake(p) for p in n.split("-"))
            kept[n] = fallback
            if fallback == n:
                del new[n]
            else:
                new[n] = fallback
    return new, kept, proofs


def is_function(path, name, source):
    """In a source: the name stands there as a function's alone, or with fields and calls of it."""
    return path.endswith(".rt") and re.search(r"\bfn " + re.escape(name) + r"\b", source) is not None


def turned(path, t, new, own):
    def one(m):
        word, at = m.group(0), m.start()
        if word not in new:
            return word
        if word in own and (at == 0 or t[at - 1] != "."):
            return word
        if t[max(0, at - 5) : at] == "Need-" or t[max(0, at - 4) : at] == "tie.":
            return word
        return new[word]

    return TOKEN.sub(one, t)


def ghost(t, new):
    """In a source, clauses and ghost lines alone: the rest of it never has these names (checked by what is printed)."""
    return TOKEN.sub(lambda m: new.get(m.group(0), m.group(0)), t)


def main():
    new, kept, proofs = changes()
    if "--list" in sys.argv:
        for n in sorted(new):
            print(n + "\t" + new[n] + ("\tkept" if n in kept else ""))
        for n in sorted(kept.keys() - new.keys()):
            print(n + "\t" + n + "\tkept")
        return
    for path in files((".antt", ".rt", ".edit")):
        t = text(path)
        n = turned(path, t, new, proofs.get(path, set())) if path.endswith(".antt") else ghost(t, new)
        if n != t:
            with open(path, "w", encoding="utf-8") as f:
                f.write(n)
    print(f"{len(new)} names have a new spelling, {len(kept)} of them keep their dashes")


main()

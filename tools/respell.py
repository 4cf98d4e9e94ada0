#!/usr/bin/env python3
"""Brings the repository's own names in specs/ and proofs/ to today's spelling. Run once, at the top of the repository, right after
the toolchain's port.py: definitions and lemmas in snake case, facts and other types in camel case, a prime as an apostrophe.

A dash stays in a lemma's name where the part before it names a definition; elsewhere it becomes an underscore. Names of Rust code, of
goals and of the library stay; fields change where they stand behind no dot, and respell_rest.py turns what is left of them. With
--write it writes; it prints what it renames, and without --write stops where two names would fall together.
"""
import collections
import glob
import re
import sys

SIGNATURE = re.compile(r"^( {0,4})((?:abbrev |unfoldable |pub |record |data )*)([^\s(){}.,;:]+)((?: \([^()]*\)| \{[^{}]*\})*) : (.*)$")
TOKEN = re.compile(r"[^\s(){}.,;`\"∷⌜⌝\[\]|]+")
GENERATED = re.compile(r"use \S*proofs\S*\.(?:Goals|Given|Needs|Choices)\.\{([^}]*)\}")
# words of the library that lemmas of ours are about
LIBRARY = set("length take drop map append replicate cond eqb ltb leb add sub mul and or not getD slice_index get_or set min max".split())


def snake(name):
    return re.sub(r"(?<=[a-z0-9])([A-Z])", lambda m: "_" + m[1].lower(), name)


def camel(name):
    return "".join(w[:1].upper() + w[1:] for w in re.split(r"[-_]", name))


def sources(*kinds):
    for kind in kinds:
        yield from sorted(glob.glob(f"crates/*/{kind}/**/*.antt", recursive=True))


def main():
    texts = {p: open(p, encoding="utf-8").read() for p in sources("specs", "proofs")}
    rust = {p: open(p, encoding="utf-8").read() for p in sorted(glob.glob("crates/*/src/**/*.rt", recursive=True))}
    own, facts, definitions, goals, left = collections.defaultdict(set), set(), set(), set(), set()
    for p, t in texts.items():
        for m in GENERATED.finditer(t):
            goals.update(w.strip().split(" ")[0] for w in m[1].split(","))
        for line in t.split("\n"):
            m = SIGNATURE.match(line)
            if not m:
                continue
            name, kind = m[3], m[5]
            own[name].add(p)
            if kind.startswith("goal.") or ".Goals." in kind:
                goals.add(name)
            if re.search(r"(^|→ )Type 0( where)?$", kind) or "record " in m[2] or "data " in m[2]:
                facts.add(name)
            if "abbrev" in m[2] or "unfoldable" in m[2]:
                definitions.add(name)
    for t in texts.values():
        left.update(re.findall(r"(?<=[\w)'])\.([^\s(){}.,;]*-[^\s(){}.,;]*)", re.sub(r"^use .*$", "", t, flags=re.M)))
    new = {}
    for name in own:
        if name in goals:
            continue
        if name in facts:
            if "-" in name and not name.startswith("Inv-"):
                new[name] = camel(name)
            continue
        if name[0].isupper():
            continue
        to = snake(name).replace("′", "'")
        if "-" in to and name not in left:
            parts = to.split("-")
            out = parts[0]
            for part in parts[1:]:
                out += ("-" if snake(out) in {snake(d) for d in definitions} | LIBRARY else "_") + part
            to = out
        if to != name:
            new[name] = to
    # a mixfix operator goes by hand: there is one
    for n in list(new):
        if n.startswith("_") or "◌" in n:
            del new[n]
    new["◌orElse◌"] = "◌or_else◌"
    words = set()
    for t in texts.values():
        words.update(TOKEN.findall(re.sub(r"use \S*(proofs|declared)\S*$|proofs\.\S*\.|\b(c|l|goal)\.\S*", "", t, flags=re.M)))
    # a lemma that would have its definition's name
    taken = collections.Counter(new.values())
    meant = {new.get(n, n) for n in definitions}
    for n in list(own):
        to = new.get(n, n)
        if n not in definitions and n not in facts and n not in goals and (taken[to] > 1 or to in meant):
            new[n] = to + "_lem"
    clash = collections.defaultdict(list)
    for n, to in new.items():
        clash[to].append(n)
    bad = [(to, ns) for to, ns in clash.items() if len(ns) > 1 or (to in words and to not in new)]
    for to, ns in sorted(bad):
        print("falls together:", to, ns, "(stands already)" if to in words else "")
    if bad and "--write" not in sys.argv:
        return 1
    dashed = {n for n in new if "-" in n}

    def turned(text):
        def put(m):
            w = m[0]
            if w not in new:
                return w
            if w in dashed and w not in facts and m.start() and text[m.start() - 1] == ".":
                line = text.rfind("\n", 0, m.start()) + 1
                if not text.startswith(("use ", "ghost use ", "    ghost use "), line):
                    return w
            return new[w]
        return TOKEN.sub(put, text)

    edits = {p: open(p, encoding="utf-8").read() for p in sorted(glob.glob("crates/*/must-fail/*.edit"))}
    docs = {p: open(p, encoding="utf-8").read() for p in ["README.md"] + sorted(glob.glob("docs/*.md"))}
    if "--write" in sys.argv:
        for p, t in {**texts, **rust, **edits}.items():
            u = turned(t)
            if u != t:
                open(p, "w", encoding="utf-8").write(u)
        for p, t in docs.items():
            u = re.sub(r"`[^`\n]*`", lambda m: turned(m[0]), t)
            if u != t:
                open(p, "w", encoding="utf-8").write(u)
    for n in sorted(new):
        print(n, "->", new[n])
    return 0


sys.exit(main())

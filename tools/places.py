#!/usr/bin/env python3
"""Lists the places in crates/*/src of a commit that docs/DESIGN-PASS.md counts, point by point.

    tools/places.py COMMIT          (HEAD if none is given; `-v` prints each place)

It goes by text, so it finds candidates: the page says which of them are places, and what became of each.
"""
import difflib
import re
import subprocess
import sys

verbose = "-v" in sys.argv
args = [a for a in sys.argv[1:] if a != "-v"]
commit = args[0] if args else "HEAD"


def git(*a):
    return subprocess.run(["git", *a], capture_output=True, text=True, check=True).stdout


files = [f for f in git("ls-tree", "-r", "--name-only", commit, "crates").split() if "/src/" in f]
text = {f: git("show", f"{commit}:{f}") for f in files}
code = {f: re.sub(r"//[^\n]*", "", t) for f, t in text.items()}


def show(title, found):
    print(f"{len(found):4}  {title}")
    if verbose:
        for line in found:
            print(f"        {line}")


def lines(pattern, keep=lambda f: True):
    return [
        f"{f}:{n}: {line.strip()}"
        for f, t in code.items()
        if keep(f)
        for n, line in enumerate(t.split("\n"), 1)
        if re.search(pattern, line)
    ]


def functions():
    """Each function with a body: file, name, parameters, body."""
    for f, t in code.items():
        for m in re.finditer(r"\bfn (\w+)", t):
            depth, i = 0, m.end()
            while i < len(t) and (depth or t[i] not in "({;"):
                depth += (t[i] == "<") - (t[i] == ">" and t[i - 1] != "-")
                i += 1
            if i >= len(t) or t[i] != "(":
                continue
            j, depth = i + 1, 1
            while depth:
                depth += (t[j] in "([{") - (t[j] in ")]}")
                j += 1
            params = [p for p in re.split(r",(?![^<\[(]*[>\])])", t[i + 1 : j - 1]) if p.strip()]
            body = re.search(r"\n\s*\{\n(.*?)\n\s*\}\n", t[j:], re.S)
            here = re.search(r"\bfn \w", t[j:])
            if body and not (here and here.start() < body.start()):
                yield f, m.group(1), params, body.group(1)


NAMES = re.compile(r"\b[A-Za-z_]\w*\b|b?\"[^\"]*\"|b?'[^']*'|\d+|\S")


def shape(body):
    """The body's tokens, with every name, text and number as one."""
    keep = {"for", "in", "if", "else", "match", "let", "mut", "return", "while", "loop", "self", "Some", "None", "Ok", "Err"}
    return [t if t in keep or not re.match(r"[\w\"']|b[\"']", t) else "_" for t in NAMES.findall(body)]


def twins():
    fs = [(f, n, shape(b)) for f, n, _, b in functions()]
    fs = [x for x in fs if len(x[2]) >= 12]
    out = []
    for i, (f, n, a) in enumerate(fs):
        for g, m, b in fs[i + 1 :]:
            if abs(len(a) - len(b)) * 5 <= len(a) and difflib.SequenceMatcher(None, a, b).ratio() >= 0.9:
                out.append(f"{f}: {n} ~ {g}: {m}")
    return out


def repeated(word):
    seen = {}
    for f, t in text.items():
        for m in re.finditer(r"^\s*" + word + r" ?\w* ?\{ (.*) \}\s*$", t, re.M):
            seen.setdefault(m.group(1), []).append(f)
    return [f"{len(v)} times: {k}" for k, v in sorted(seen.items(), key=lambda x: -len(x[1])) if len(v) >= 3]


library = lambda f: "shared_tests" not in f
print(f"at {git('rev-parse', commit).strip()}")
print("1 own Option or Result, flags beside values, numbers for kinds")
show("enums", lines(r"^\s*(pub(\(crate\))? )?enum "))
show("fields of type bool", lines(r"^\s+(pub )?\w+: bool,$"))
show("arms that turn an Option or a Result by hand", lines(r"(Some|Ok)\(\w+\) => (Ok|Some)\(|Err\(\w+\) => (return )?(Err|None)|None => (return )?Err", library))
print("2 twins")
show("pairs of functions of one shape", twins())
print("3 loops")
show("for over a range", lines(r"\bfor \w+ in .*\.\.", library))
show("while and loop", lines(r"^\s*(while|loop)\b", library))
show("other for", lines(r"^\s*for .* in (?!.*\.\.)", library))
print("4 by hand")
show("types with no derive of PartialEq", [
    f"{f}: {m.group(3)}"
    for f, t in code.items()
    for m in re.finditer(r"(#\[derive\(([^)]*)\)\]\s*(?:#\[repr\(C\)\]\s*)?)?(?:pub(?:\(crate\))? )?(?:struct|enum) (\w+)", t)
    if library(f) and "PartialEq" not in (m.group(2) or "")
])
show("functions that compare, convert or print", lines(r"fn (same_\w+|number|hex\w*|push_number|digits\w*|cause_name|write_of|is_mark|new)\b", library))
print("5 facts and parameters")
show("facts required three times or more", repeated("requires"))
show("functions of six or more parameters", [f"{f}: {n} ({len(p)})" for f, n, p, _ in functions() if len(p) >= 6])
print("6 buffers, parallel slices")
show("fields and parameters that are arrays", lines(r"^\s*(pub )?\w+: \[[^\]]+; \w+\],$"))
show("parameters that are one of two parallel slices", lines(r"^\s*(ends|kept)_[ab]: &"))
print("7 steps and tables of functions")
show("dyn, fn pointers", lines(r"\bdyn |: fn\("))
print("8 proofs")
proofs = [f for f in git("ls-tree", "-r", "--name-only", commit, "crates").split() if "/proofs/" in f]
sizes = {f: len(git("show", f"{commit}:{f}").split("\n")) - 1 for f in proofs}
for kind, test in (("Answers.antt", "Answers.antt"), ("Invariants.antt", "Invariants.antt"), ("other files", "")):
    fs = [f for f in proofs if (f.endswith(test) if test else not f.endswith(("Answers.antt", "Invariants.antt")))]
    print(f"{len(fs):4}  {kind} in proofs/, {sum(sizes[f] for f in fs)} lines")
print(f"{sum(t.count(' × ') for t in text.values()):4}  signs × in src/")

#!/usr/bin/env python3
"""respell.py: brings the repository's own definitions and lemmas to snake case, after port.py; run once, at the top.

What is renamed: names that a file of specs/ or a lemma file of proofs/ declares (definitions, lemmas, fields, constructors), written
`likeThis`, `like-this` or both. They become `like_this`; a lemma `like-this` beside a definition `likeThis` or `like_this`, or beside a word of
the kit, becomes `like_this_lem`. Names of functions of src/, of types and modules, of the kit, and of the proofs below proofs/FUNCTION/ stay.
The must-fail edits and the names in backticks of README and docs/ follow. It prints what it leaves and what to look at.
"""
import collections
import os
import re
import sys

WORD = re.compile(r"[^\s(){}.;,@\"«»\[\]\\:`]+")
SIGNATURE = re.compile(r"^\s*(?:(?:pub|abbrev|unfoldable|data|record)\s+)*([^\W\d_][^\s(){}.;,:]*(?:\s+[^\W\d_][^\s(){}.;,:]*)*)\s+:(?:\s|$)")
ALIAS = re.compile(r"\bas\s+([a-z][^\s(){}.;,:]*)")
KIT = re.compile(r"^\s*(?:pub\s+|ghost\s+)?use\s+(?!Rattle\.(?!std\b|io\b|libc\b|os\b|core\b))")
MADE = re.compile(r"^(returns|loop|overflow|bounds|slice_bounds|offset|invariant|decreases|in|if|enum|known|shape|cast|mul|add|sub)(-|$)")


def files(endings):
    for folder, dirs, names in os.walk("crates"):
        dirs[:] = sorted(d for d in dirs if d != "out")
        for n in sorted(names):
            if n.endswith(endings):
                yield os.path.join(folder, n)


def read(path):
    with open(path, encoding="utf-8", newline="") as f:
        return f.read()


def snake(name):
    name = re.sub(r"(?<=[a-z0-9])([A-Z])", lambda m: "_" + m.group(1).lower(), name)
    return name.replace("-", "_").replace("′", "'")


def uses(text):
    """The names that a file takes from the kit."""
    for m in re.finditer(r"(?m)^\s*(?:pub |ghost )?use ([^;{}\n]*)\.\{([^}]*)\}", text):
        own = m.group(1).startswith("Rattle.") and m.group(1).split(".")[1] in OWN
        if not own:
            for it in m.group(2).split(","):
                yield re.split(r"\s+as\s+", it.strip())[-1]


def below_function(path):
    return path.split("/")[2] == "proofs" and len(path.split("/")) > 4


OWN = {c for c in os.listdir("crates")}


def declared():
    found, kit = set(), set()
    for p in files((".antt",)):
        text = read(p)
        kit |= set(uses(text))
        for line in text.splitlines():
            m = SIGNATURE.match(line)
            if m and not below_function(p) and not line.lstrip().startswith("--"):
                found |= set(m.group(1).split())
            # parameters and locals too, where they are written `likeThis`
            found |= set(re.findall(r"(?<![\w'-])[a-z][a-z0-9]*[A-Z][A-Za-z0-9]*(?![\w'-])", line.split("-- ")[0]))
            if line.startswith("use ") or line.startswith("pub use "):
                for it in re.finditer(ALIAS, line):
                    found.add(it.group(1))
    for p in files((".rt",)):
        text = read(p)
        kit |= set(uses(text))
        for m in re.finditer(r"(?m)^ghost use [^;]*;", text):
            for it in re.finditer(ALIAS, m.group(0)):
                found.add(it.group(1))
    old = {n for n in found if n[0].islower() and (re.search(r"[A-Z]", n) or "-" in n or "′" in n)}
    left = {n for n in old if n in kit}
    return old - left, left, (found | kit) - old


def turn(text, names, dashes):
    def word(m):
        t = m.group(0)
        if t not in names or ("-" in t and not dashes):
            return t
        # behind a dot a lemma's name can only be one that Rattle makes
        behind = m.start() and text[m.start() - 1] == "."
        return re.sub("_lem$", "", names[t]) if behind else names[t]

    return WORD.sub(word, text)


def antt(text, names):
    out = []
    for line in text.split("\n"):
        at = re.search(r"(^|\s)--(\s|$)", line)
        cut = at.start() if at else len(line)
        head, tail = turn(line[:cut], names, True), line[cut:]
        tail = re.sub(r"`[^`]*`", lambda m: turn(m.group(0), names, True), tail)
        out.append(head + turn(tail, names, False))
    return "\n".join(out)


def clauses(text):
    """Where the ghost lines and the clauses of a source stand."""
    for m in re.finditer(r"(?m)^ghost use [^;]*;", text):
        yield m.span()
    for m in re.finditer(r"(?m)^\s*(?:requires|ensures|ghost)\b[^{\n]*\{", text):
        depth, i = 1, m.end()
        while depth:
            depth += {"{": 1, "}": -1}.get(text[i], 0)
            i += 1
        yield m.end(), i


def rt(text, names):
    out, last = [], 0
    for a, b in sorted(clauses(text)):
        if a < last:
            continue
        out += [text[last:a], turn(text[a:b], names, True)]
        last = b
    return "".join(out) + text[last:]


def together(names):
    """Old names that would be one, in files where both stand."""
    back = collections.defaultdict(set)
    for o, n in names.items():
        back[n].add(o)
    for p in files((".antt", ".rt")):
        text = read(p)
        parts = text if p.endswith(".antt") else "\n".join(text[a:b] for a, b in clauses(text))
        words = set(WORD.findall("\n".join(l for l in parts.split("\n") if not l.lstrip().startswith("--"))))
        for n in {names[w] for w in words if w in names}:
            both = {w for w in back[n] | {n} if w in words}
            if len(both) > 1:
                yield p, n, sorted(both)
        if p.endswith(".rt"):
            code = set(re.findall(r"\b([a-z]\w*)\s*:(?!:)", text)) | set(re.findall(r"\blet (?:mut )?(\w+)", text))
            for n in {names[w] for w in words if w in names} & code:
                yield p, n, ["a parameter or local " + n]


def main():
    old, left, plain = declared()
    taken = {snake(o) for o in old if "-" not in o} | plain
    names = {o: snake(o) + ("_lem" if "-" in o and snake(o) in taken else "") for o in old}
    for n in sorted(left):
        print("left: the kit has it too:", n)
    for n in sorted(names):
        if MADE.match(n):
            print("look: spelled like a name that Rattle makes:", n)
    for p, n, both in together(names):
        print("look: together:", p, n, both)
    if "--check" in sys.argv:
        print(len(names), "names")
        return
    for p in files((".antt", ".rt")):
        text = read(p)
        new = antt(text, names) if p.endswith(".antt") else rt(text, names)
        if new != text:
            with open(p, "w", encoding="utf-8", newline="") as f:
                f.write(new)
    for p in files((".edit",)):
        lines = read(p).split("\n")
        of_specs = any(l.startswith("file:") and l.endswith(".antt") for l in lines)
        new = "\n".join(turn(l, names, of_specs) if l.startswith(("old:", "new:")) else l for l in lines)
        if new != "\n".join(lines):
            with open(p, "w", encoding="utf-8", newline="") as f:
                f.write(new)
    pages = ["README.md"] + [os.path.join(d, n) for d, _, ns in os.walk("docs") for n in ns if n.endswith(".md")]
    for p in pages:
        text = read(p)
        new = re.sub(r"`[^`\n]*`", lambda m: turn(m.group(0), names, True), text)
        if new != text:
            with open(p, "w", encoding="utf-8", newline="") as f:
                f.write(new)
    print(len(names), "names")


main()

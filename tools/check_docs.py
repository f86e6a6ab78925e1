#!/usr/bin/env python3
"""Whether what the papers name is there: each definition and theorem that docs/CLAIMS.md names with its file, each function, each
must-fail edit, and each paragraph of docs/SPEC.md that a comment or a paper cites. It prints what is missing; the exit status is 1 then.
"""
import glob
import os
import re
import sys

TOP = os.path.dirname(os.path.dirname(os.path.abspath(__file__)))
PAPERS = ["README.md", "compare/README.md"] + ["docs/%s.md" % n for n in ("SPEC", "CLAIMS", "DECISIONS", "DIFFERENCES", "PERFORMANCE")]
PAPERS += sorted(os.path.relpath(p, TOP) for p in glob.glob(os.path.join(TOP, "docs", "requests", "*.md")))
COMMENTS = ["crates/*/src/*.rt", "crates/*/specs/*.antt", "crates/*/proofs/**/*.antt", "compare/**/*.rs", "compare/fuzz/*.c", "bindings/sendai.h"]
FILE = r"\b([a-z][a-z0-9_]*)/(specs|proofs)/([A-Z]\w*)\b"


def read(path):
    with open(os.path.join(TOP, path), encoding="utf-8") as f:
        return f.read()


def defines(text, name):
    return re.search(r"^\s*(abbrev |unfoldable )?(pub )?(record |data )?%s(?=[\s:(])" % re.escape(name), text, re.M)


def names(line):
    """What the line names of files and definitions, and is not there."""
    for m in re.finditer(r"((?:`[^` ]+`(?:, | and | )?)*)\(?" + FILE, line):
        path = "crates/%s/%s/%s.antt" % m.groups()[1:]
        if not os.path.exists(os.path.join(TOP, path)):
            yield path
            continue
        text = read(path)
        for name in re.findall(r"`([^`]+)`", m.group(1)):
            if not defines(text, name):
                yield "%s in %s" % (name, path)
    for crate, function in re.findall(r"`([a-z][a-z0-9_]*)::([a-z_]+)`", line):
        sources = glob.glob(os.path.join(TOP, "crates", crate, "src", "*.rt"))
        if sources and not any(re.search(r"\bfn %s\b" % function, open(s, encoding="utf-8").read()) for s in sources):
            yield "%s::%s" % (crate, function)
    for crate, edit in re.findall(r"(?<![\w/])([a-z][a-z0-9_]*)/([a-z0-9_]+)(?![\w/.])", line):
        folder = os.path.join(TOP, "crates", crate)
        if os.path.isdir(os.path.join(folder, "must-fail")) and not os.path.exists(os.path.join(folder, edit)):
            if not os.path.exists(os.path.join(folder, "must-fail", edit + ".edit")):
                yield "%s/must-fail/%s.edit" % (crate, edit)


def cited(text):
    """The paragraphs that a text cites: `SPEC 3.6`, `SPEC 4.3, 4.5`, `SPEC 6.4 to 6.10`."""
    for run in re.findall(r"SPEC (\d+(?:\.\d+)?(?:(?:, | to | and )\d+\.\d+)*)", text):
        yield from re.findall(r"\d+(?:\.\d+)?", run)


def main():
    spec = read("docs/SPEC.md")
    known = set(re.findall(r"^\*\*(\d+\.\d+) ", spec, re.M)) | set(re.findall(r"^\| (\d+\.\d+) ", spec, re.M)) | set(re.findall(r"^## (\d+) ", spec, re.M))
    missing = 0
    for pattern in PAPERS + COMMENTS:
        for path in sorted(glob.glob(os.path.join(TOP, pattern), recursive=True)):
            short = os.path.relpath(path, TOP)
            for number, line in enumerate(read(short).split("\n"), 1):
                wrong = ["SPEC %s" % p for p in cited(line) if p not in known]
                if short in PAPERS:
                    wrong += names(line)
                for what in wrong:
                    print("%s:%d: no %s" % (short, number, what))
                    missing += 1
    sys.exit(1 if missing else 0)


main()

#!/usr/bin/env python3
"""Writes docs/DESIGN-PASS-CHANGES.md: by crate the public functions with their clauses, the public types, the definitions of specs/ and the
theorems that the papers name, which differ between the commit of docs/DESIGN-PASS.md's first line and this checkout's HEAD.
"""

import pathlib
import re
import subprocess

TOP = pathlib.Path(__file__).resolve().parent.parent
PAGE = TOP / "docs" / "DESIGN-PASS-CHANGES.md"
BASE = (TOP / "docs" / "DESIGN-PASS.md").read_text().split("\n", 1)[0]
HEAD = """# What the design pass changed, old and new

Made by `tools/changed.py` from the two trees: of each crate the public functions with their clauses, the public types, the definitions of specs/ and the theorems
that README or docs/ name, which differ, are gone or are new. `was` is commit 2cdaf33. What states the promise of what is gone is in docs/DESIGN-PASS.md and docs/DESIGN-PASS-GONE.md.
"""


def git(*words):
    return subprocess.run(["git", *words], cwd=TOP, capture_output=True, text=True, check=True).stdout


def tree(commit, suffix):
    names = [n for n in git("ls-tree", "-r", "--name-only", commit).split("\n") if n.startswith("crates/") and n.endswith(suffix)]
    return {name: git("show", f"{commit}:{name}") for name in names}


def dedent(lines):
    indent = min((len(x) - len(x.lstrip()) for x in lines if x.strip()), default=0)
    return "\n".join(x[indent:].rstrip() for x in lines)


def items(text):
    """The public functions, up to their bodies, the public types, and what conversions promise."""
    lines = text.split("\n")
    at, owner = 0, ""
    while at < len(lines):
        line = lines[at]
        end = at
        if line.startswith("impl"):
            owner = line.removesuffix(" {") + ": "
        elif line.startswith("}"):
            owner = ""
        if re.match(r"\s*pub (?:extern \"C\" )?fn ", line):
            while not re.search(r"\{$", lines[end]) or re.search(r"(?:requires|ensures)", lines[end]) and lines[end].rstrip().endswith("}"):
                end += 1
            yield owner + dedent(lines[at:end] if lines[end].strip() == "{" else lines[at:end + 1]).removesuffix(" {")
        elif re.match(r"pub (?:struct|enum) ", line):
            while not lines[end].startswith("}") and not lines[end].endswith(";"):
                end += 1
            yield dedent(lines[at:end + 1])
        elif re.match(r"impl.* (?:From<|TryFrom<|Default for )", line):
            while "fn " not in lines[end]:
                end += 1
            yield dedent([x for x in lines[at:end] if x.strip() and not x.lstrip().startswith("#[")])
        at = end + 1


def paragraphs(text):
    for block in re.split(r"\n\s*\n", text):
        kept = [x for x in block.split("\n") if x.strip() and not x.lstrip().startswith("--") and not x.startswith(("use ", "pub use ", "pub mod "))]
        if kept:
            yield dedent(kept)


def named():
    """The names in backticks that the papers have, and the files of proofs that they name."""
    papers = [TOP / "README.md", *(TOP / "docs").glob("*.md"), *(TOP / "docs" / "requests").glob("*.md")]
    text = "\n".join(p.read_text() for p in papers if not p.name.startswith("DESIGN-PASS"))
    return set(re.findall(r"`([a-z_]\w*)`", text)), set(re.findall(r"\b([a-z][a-z0-9_]*/proofs/[A-Z]\w*)\b", text))


def statements(text, names):
    for block in paragraphs(text):
        found = re.match(r"(?:abbrev )?pub (\S+) :", block)
        if found and found[1] in names:
            lines = block.split("\n")
            last = next((i for i, x in enumerate(lines) if i and re.match(rf"(?:unfolding\b|{re.escape(found[1])}\b)", x)), len(lines))
            yield "\n".join(lines[:last])


def by_crate(files, parts):
    found = {}
    for name, text in files.items():
        found.setdefault(name.split("/")[1], []).extend(parts(name, text))
    return found


def differing(was, now):
    return [x for x in was if x not in set(now)], [x for x in now if x not in set(was)]


def main():
    names, files = named()
    kinds = [
        ("public functions and types", ".rt", "rust", lambda n, t: list(items(t)) if "/src/" in n else []),
        ("definitions", ".antt", "antt", lambda n, t: list(paragraphs(t)) if "/specs/" in n else []),
        ("named theorems", ".antt", "antt", lambda n, t: list(statements(t, names)) if n[len("crates/"):-len(".antt")] in files else []),
    ]
    found = [(title, tongue, by_crate(tree(BASE, end), parts), by_crate(tree("HEAD", end), parts)) for title, end, tongue, parts in kinds]
    page = [HEAD]
    for crate in sorted({c for _, _, was, now in found for c in [*was, *now]}):
        lines = []
        for title, tongue, was, now in found:
            old, new = differing(was.get(crate, []), now.get(crate, []))
            if old or new:
                lines.append(f"**{title}**\n")
                lines += [f"{word}\n```{tongue}\n" + "\n".join(part) + "\n```" for word, part in (("was", old), ("is", new)) if part]
                lines.append("")
        if lines:
            page.append(f"## {crate}\n\n" + "\n".join(lines))
    PAGE.write_text("\n".join(page).rstrip() + "\n")


if __name__ == "__main__":
    main()

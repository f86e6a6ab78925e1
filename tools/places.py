#!/usr/bin/env python3
"""Lists the places in crates/*/src that docs/DESIGN-PASS.md counts: `tools/places.py [POINT] [--list]`, POINT 1 to 8."""

import pathlib
import re
import sys

ROOT = pathlib.Path(__file__).resolve().parent.parent / "crates"
FN = re.compile(r"^[ \t]*(?:pub )?(?:extern \"C\" )?fn (\w+)(?:<[^>]*>)?\(([^)]*(?:\([^)]*\)[^)]*)*)\)(?:\s*->\s*([^\n{]+))?", re.M)


def sources():
    for path in sorted(ROOT.glob("*/src/**/*.rt")):
        text = re.sub(r"^\s*//.*$", "", path.read_text(), flags=re.M)
        yield str(path.relative_to(ROOT)), text


def matching(pattern):
    for name, text in sources():
        for found in re.finditer(pattern, text, re.M):
            yield f"{name}:{text.count(chr(10), 0, found.start()) + 1}: {found.group(0).strip()}"


def functions():
    for name, text in sources():
        for found in FN.finditer(text):
            params = [p.strip() for p in re.split(r",(?![^<\[(]*[>\])])", found.group(2)) if p.strip()]
            yield f"{name}: {found.group(1)}", params, (found.group(3) or "").strip()


def names(params):
    return {p.split(":")[0].strip() for p in params if ":" in p}


def with_all(*wanted):
    return [where for where, params, _ in functions() if set(wanted) <= names(params)]


def answers():
    files = [p for p in ROOT.glob("*/proofs/*/**/*.antt")] + [p for p in ROOT.glob("*/proofs/*.antt")]
    stored = [p for p in files if p.name == "Answers.antt"]
    lines = sum(len(p.read_text().splitlines()) for p in stored)
    goals = sum(len(re.findall(r"^pub \S+ : goal\.", p.read_text(), re.M)) for p in stored)
    return [f"{len(stored)} files of answers", f"{goals} answered goals", f"{lines} lines of answers"]


GROUPS = [
    ("g", "states"),
    ("states", "ids"),
    ("states", "names", "len"),
    ("states", "entries"),
    ("given", "clues"),
    ("us", "vs"),
    ("n", "m"),
    ("head", "next", "to"),
    ("table", "cells"),
    ("table", "marks"),
    ("starts", "flat"),
    ("starts", "list"),
    ("finders", "entries", "queue"),
    ("nstarts", "near"),
    ("near", "stamps"),
    ("codes", "count"),
    ("marks", "list", "len"),
    ("buffer", "at"),
    ("out", "c"),
]

POINTS = {
    "1": [
        ("own enums", lambda: list(matching(r"^\s*(?:pub )?enum \w+"))),
        ("records with a code beside a value", lambda: list(matching(r"^\s*pub code: u8"))),
        ("functions that answer a question's number", lambda: [f"{w} -> u8" for w, _, r in functions() if r == "u8"]),
    ],
    "2": [
        ("names that say which of two sizes or types", lambda: list(matching(r"fn \w*(?:_small|_large|_byte|bytes_)\w*"))),
        ("two arms that differ in the sizes of their arrays", lambda: list(matching(r"if (?:grid::is_small\(g\)|\w+(?:\.\w+)*\.is_small\(\)|n <= 64|g\.height \* g\.width <= 64)"))),
        ("calls by value beside the same in place", lambda: [w for w, _, _ in functions() if re.search(r": (?:stroke|decide|undo|ask)$", w)]),
    ],
    "3": [("loops that are no `for`", lambda: list(matching(r"^\s*while [^\n]*")))],
    "4": [
        ("calls of a widening function", lambda: list(matching(r"\bwide\("))),
        ("comparisons, conversions and copies by hand", lambda: list(matching(r"^\s*(?:pub )?fn (?:wide|greater|greater_byte|longer|copy|fill|left_by|above|within|bytes_within|narrow|held|of_listed|of_answer|\w*_of_answer|direction_of|direction|place_of|listing_of|parts_of|call_fields|step_fields|outcome_of|line_of)\("))),
    ],
    "5": [(" and ".join(group), lambda group=group: with_all(*group)) for group in GROUPS]
    + [("functions of more than six parameters", lambda: [f"{w} ({len(p)})" for w, p, _ in functions() if 6 < len(p)])],
    "6": [
        ("lengths beside an array", lambda: list(matching(r"^\s*pub (?:\w*_)?len: usize"))),
        ("slices with a length as a parameter of its own", lambda: [w for w, p, _ in functions() if names(p) & {"len", "n", "m", "count"} and any("[u" in q for q in p)]),
    ],
    "7": [("flags that choose a step", lambda: [w for w, p, _ in functions() for q in p if re.search(r": bool$", q)])],
    "8": [("answers", answers)],
}


def main():
    listing = "--list" in sys.argv
    wanted = [a for a in sys.argv[1:] if a != "--list"] or sorted(POINTS)
    for point in wanted:
        for title, find in POINTS[point]:
            places = find()
            print(f"{point}. {title}: {len(places)}")
            if listing or point == "8":
                for place in places:
                    print(f"   {place}")


if __name__ == "__main__":
    main()

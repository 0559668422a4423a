#!/usr/bin/env python3
"""Counts, in crates/*/src/*.rt, the places that docs/DESIGN-PASS.md speaks of, point by point.

    tools/places.py          the counts, a line each
    tools/places.py --list   and each place: file, line, what stands there

It goes by the text, with comments and strings taken out: a count says where to look, and the page what was found there.
"""
import glob
import os
import re
import sys

os.chdir(os.path.join(os.path.dirname(os.path.abspath(__file__)), ".."))


def bare(text):
    """The text with comments and strings blanked, lines kept."""
    text = re.sub(r'"(?:[^"\\\n]|\\.)*"', lambda m: '"' + " " * (len(m.group()) - 2) + '"', text)
    return re.sub(r"//[^\n]*", lambda m: " " * len(m.group()), text)


FILES = {f: bare(open(f, encoding="utf-8").read()) for f in sorted(glob.glob("crates/*/src/*.rt"))}


def grep(pattern, keep=lambda m: True):
    """Each match: file, line, its text in one line."""
    for f, text in FILES.items():
        for m in re.finditer(pattern, text):
            if keep(m):
                yield f, text.count("\n", 0, m.start()) + 1, " ".join(m.group().split())


HEAD = r"(?:pub )?(?:extern \"C\" )?fn \w+(?:<[^{}]*?>)?\([^{}]*?\)(?: -> [^{}]*?)?(?=\s*(?:requires\b|ensures\b|\{))"


def heads(keep):
    """Signatures of functions."""
    return grep(HEAD, lambda m: keep(" ".join(m.group().split())))


def has(*patterns):
    return lambda head: all(re.search(p, head) for p in patterns)


ROWS = [
    ("1 own enums of the shape of Result", lambda: grep(r"pub enum \w+ \{[^}]*\bRefused\(u8\)[^}]*\}")),
    ("1 refusals given by a number", lambda: grep(r"\bRefused\(\d+\)|return [1-9];")),
    ("1 refusals handed on by a number", lambda: grep(r"\w+::Refused\(\w*[a-z_]\w*\)(?! =>)")),
    ("1 bool that says whether a buffer was written", lambda: heads(has(r"&mut", r"-> bool$"))),
    ("1 number that is 0 where there is none", lambda: heads(has(r"fn (first_\w+|lowest\w*)\(", r"-> usize$"))),
    ("1 public types without Debug or equality", lambda: grep(r"(?:#\[derive\([^)]*\)\]\s*)?\npub (?:struct|enum) \w+", lambda m: not ("Debug" in m.group() and "PartialEq" in m.group()))),
    ("2 functions of one stem that differ in what is run", lambda: grep(r"fn \w+_case\(")),
    ("2 functions that set an array of flags", lambda: heads(has(r"-> \[bool; 16\]$"))),
    ("3 while loops", lambda: grep(r"\bwhile [^{]*\{")),
    ("3 indexes counted by hand", lambda: grep(r"\b(\w+) = \1 [+-] 1;|\b\w+ [+-]= 1;")),
    ("4 functions that print a piece", lambda: heads(has(r"out: &mut Stdout"))),
    ("4 numbers written or read digit by digit", lambda: grep(r"b'0' \+|65536 \*|16777216 \*")),
    ("5 requires SizesAre", lambda: grep(r"requires[^{\n]*\{ SizesAre ")),
    ("5 shape and z side by side", lambda: heads(has(r"\bshape: Shape", r"\bz: Sizes"))),
    ("5 functions of seven parameters and more", lambda: grep(HEAD, lambda m: len(re.findall(r"\w+: ", m.group())) >= 7)),
    ("6 a buffer with the place where it goes on", lambda: heads(has(r"\bat: usize", r"&mut \[u8\]", r"-> usize$"))),
    ("7 functions that choose by a number what is run", lambda: grep(r"fn \w+_case\(")),
]


def main():
    listed = "--list" in sys.argv[1:]
    for name, places in ROWS:
        found = list(places())
        print(f"{len(found):4}  {name}")
        if listed:
            for f, line, text in found:
                print(f"        {f}:{line}: {text[:150]}")


main()

#!/usr/bin/env python3
"""Counts the places in crates/*/src that are written in older forms.

usage: python3 tools/count_forms.py [--list] [POINT..]

A point is one of 1 to 7 (docs/DESIGN-PASS.md says what each is). A place is a line, but for repeated clauses and
parameters, where it is a clause text or a set of parameters, and for twins, where it is a group of functions of one shape.
With --list each place is printed.
"""

import glob
import os
import re
import sys
from collections import defaultdict

ROOT = os.path.dirname(os.path.dirname(os.path.abspath(__file__)))


def sources():
    for path in sorted(glob.glob(os.path.join(ROOT, "crates/*/src/**/*.rt"), recursive=True)):
        yield os.path.relpath(path, ROOT), open(path).read()


# Points that are found by lines: (what it is, pattern).
BY_LINE = {
    "1": [
        ("a match that hands an Err or a None on", r"(Err\(\w+\)|None) => (return )?(Err\(|None\b)"),
        ("a match that makes an own error of any Err or None", r"(Err\(_\w*\)|None) => (return )?Err\("),
        ("a match that wraps again what it unwraps", r"(Ok|Some)\((\w+)\) => (Ok|Some)\(\2\)"),
        ("an error written by hand for want of memory", r"Err\(AllocError\)"),
        ("a case of an own enum for a refusal", r"^\s*Refused\(Refusal\)"),
        ("a function known by its number", r"(output\(\d|\.mac\(\d|index: usize|match index\b|self\.index\b)"),
        ("a number returned that means nothing", r"^fn \w+\(\) -> u8$|^pub fn \w+\(\) -> u8$"),
        ("a bool in place of a Result or an error", r"^\s*let mut all = true"),
        ("numbers of an enum written out", r"^\s*\w+::\w+ => \d+,$"),
    ],
    "3": [
        ("a loop over numbers", r"\bfor \w+ in .*\d*\.\.[^.=]*\{|\bfor \w+ in \(\d+\.\."),
        ("a while loop", r"\bwhile\b"),
        ("a count kept by hand", r"(\w+) = \1\.saturating_add\(1\)|\w+ \+= 1;"),
        ("a search loop", r"^\s*return (Some\(\w+\)|true|Ok\(\w+\));$"),
    ],
    "4": [
        ("equality by a number or by matches!", r"\.index\(\) ==|matches!\("),
        ("a copy after a test of the length", r"copy_from_slice\("),
        ("printing by a free function", r"^fn (write_\w+|\w+_name)\b"),
        ("a conversion by a free function or a named method", r"fn (refused|\w*named|sizes_of|noted|told|place_of|digit|verdict)\b"),
        ("a Display of a wrapper", r"impl fmt::Display for (Digits|LogLine|Hex)"),
    ],
    "6": [
        ("an offset into a buffer beside it", r"\bat: usize|, \d+, (scratch|&\w+|rand|amf)\)|\[\w+\.\.\w+ \+ \w+\]"),
        ("an index computed into a flat array", r"\[\d+ \* \w+"),
        ("fields of one kind side by side", r"^\s*(pub )?\w+: Vec<u8>,$"),
        ("a tuple of unnamed values", r"^\s*\w+\((\w|[<>])+, (\w|[<>])+(, .*)?\),$"),
    ],
    "7": [
        ("a match on the step to run", r"match (step|word|line|end|self\.part|part)\b"),
        ("one function named for each of two steps", r"fn (forth|back|un)\w*_(chain|row|state)?\b"),
    ],
}


def bodies(text):
    """Each function of a file: name, header, body."""
    for m in re.finditer(r"^( *)(?:pub(?:\([a-z]+\))? )?fn (\w+)", text, re.M):
        indent = m.group(1)
        open_at = re.compile(r"^%s\{$|\{$|\{\}$" % indent, re.M).search(text, m.start())
        start = re.compile(r"(^%s\{$)|(\) *(-> [^\n]*)?\{$)|(\{\}$)" % indent, re.M).search(text, m.start())
        if not start or not open_at:
            continue
        end = re.compile(r"^%s\}$" % indent, re.M).search(text, start.end())
        stop = end.start() if end else start.end()
        yield m.group(2), text[m.start():start.start()], text[start.end():stop]


def shape(body):
    """A body with names, numbers and strings taken out."""
    body = re.sub(r"//.*", "", body)
    body = re.sub(r'"[^"]*"', '"', body)
    body = re.sub(r"\b\d\w*\b", "0", body)
    names = re.sub(r"\b(?!match|if|else|for|in|return|let|mut|Ok|Err|Some|None|self)[A-Za-z_]\w*\b", "x", body)
    return re.sub(r"\s+", " ", names).strip()


def twins():
    groups = defaultdict(list)
    for path, text in sources():
        for name, _, body in bodies(text):
            key = shape(body)
            if key.count("x") >= 5:
                groups[key].append(f"{path} {name}")
    return [v for v in groups.values() if len(v) > 1]


def clauses():
    found = defaultdict(set)
    for path, text in sources():
        crate = path.split("/")[1]
        for name, header, _ in bodies(text):
            for m in re.finditer(r"(?:requires|ensures)(?: \w+)? \{ (.*) \}$", header, re.M):
                found[(crate, m.group(1))].add(f"{path} {name}")
    return [(k[1], v) for k, v in found.items() if len(v) > 2]


def parameters():
    found = defaultdict(set)
    for path, text in sources():
        crate = path.split("/")[1]
        for name, header, _ in bodies(text):
            params = re.findall(r"(\w+): ((?:&(?:'\w+ )?(?:mut )?)?[\w\[\]<>; ]+)", header[header.find("("):].split(")")[0])
            for i, a in enumerate(params):
                for b in params[i + 1:]:
                    found[(crate, a, b)].add(f"{path} {name}")
    return [(k, v) for k, v in found.items() if len(v) > 2]


def main():
    args = [a for a in sys.argv[1:] if a != "--list"]
    listing = "--list" in sys.argv
    for point in args or ["1", "2", "3", "4", "5", "6", "7"]:
        if point in BY_LINE:
            total = 0
            for what, pattern in BY_LINE[point]:
                hits = []
                for path, text in sources():
                    for n, line in enumerate(text.splitlines(), 1):
                        if re.search(pattern, line) and not line.lstrip().startswith(("//", "ensures", "requires", "ghost")):
                            hits.append(f"{path}:{n}: {line.strip()}")
                total += len(hits)
                print(f"point {point}: {len(hits):3} {what}")
                if listing:
                    print("".join(f"    {h}\n" for h in hits), end="")
            print(f"point {point}: {total:3} in all")
        elif point == "2":
            groups = twins()
            print(f"point 2: {len(groups):3} groups of functions of one shape, {sum(map(len, groups))} functions")
            if listing:
                for g in groups:
                    print("    " + "; ".join(g))
        elif point == "5":
            texts = clauses()
            print(f"point 5: {len(texts):3} clauses that stand in three functions or more, {sum(len(v) for _, v in texts)} times")
            pairs = parameters()
            print(f"point 5: {len(pairs):3} pairs of parameters that stand in three functions or more")
            if listing:
                for text, v in sorted(texts, key=lambda t: -len(t[1])):
                    print(f"    {len(v)} {text}: " + "; ".join(sorted(v)))
                for k, v in sorted(pairs, key=lambda t: -len(t[1])):
                    print(f"    {len(v)} {k[0]}: {k[1][0]}, {k[2][0]}")


if __name__ == "__main__":
    main()

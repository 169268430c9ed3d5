#!/usr/bin/env python3
"""Brings the definitions, lemmas and ghost fields of this repository to snake case.

usage: python3 tools/snake_names.py [--list]

It ran once, after the kit's port.py had turned the spelling of the library's names. Names of the library, of goals
and of src/ stay. With --list it prints what it would rename, and names that would fall together in a file.
"""

import os
import re
import sys

ROOT = os.path.join(os.path.dirname(os.path.dirname(os.path.abspath(__file__))), "crates")
TOKEN = re.compile(r"[^\s(){}.;,@\"λ«»]+?(?=:?[\s(){}.;,@\"λ«»]|:?$)")
CAMEL = re.compile(r"^[a-z][a-z0-9]*[A-Z][A-Za-z0-9]*['*]*$")
SIGNATURE = re.compile(r'^\s*(?:(?:pub|abbrev|unfoldable|opaque|private)\s+)*([^\s(){}.;,@"λ:«»]+)\s*:(?=\s)')
GHOST = re.compile(r"^\s*(?:pub\s+)?ghost (\w+):")

# where two names would fall together, or where a name has a capital for the standard's symbol
CHOSEN = {
    "all-ff": "is_all_ff",
    "at-network": "at_network_moves",
    "autn-amf": "autn_amf_is",
    "autn-mac": "autn_mac_is",
    "autn-masked": "autn_masked_is",
    "autn-number": "autn_number_is",
    "auts-mac": "auts_mac_is",
    "auts-masked": "auts_masked_is",
    "auts-number": "auts_number_is",
    "mix-by": "mix_by_undone",
    "rand-of": "rand_of_open",
    "receive-grounds": "receive_grounds_agree",
    "round-key": "round_key_is",
    "vector-size": "vector_size_is",
    "writes-auts": "writes_an_auts",
    "getD-⊕": "get_or_⊕",
    "append-nil": "append_none",
    "mul-zero": "mul_by_zero",
    "S": "s_box",
    "unS": "un_s_box",
    "S-byte": "s_box_byte",
    "unS-byte": "un_s_box_byte",
    "S-unS": "s_box_un_s_box",
    "unS-S": "un_s_box_s_box",
}
# names that are renamed only in some crates
ONLY = {"S": ("field", "rijndael", "examples"), "mul-zero": ("field", "rijndael"), "append-nil": ("driver",)}


def files(kinds):
    for folder, dirs, names in os.walk(ROOT):
        dirs[:] = sorted(d for d in dirs if d != "out")
        for name in sorted(names):
            if name.endswith(kinds):
                yield os.path.join(folder, name)


def is_goal_file(path):
    return os.path.basename(path) in ("Answers.antt", "Invariants.antt", "Proof.antt")


def is_old(name):
    camel = CAMEL.match(name) or (re.match(r"^[a-z]", name) and re.search(r"[A-Z]", name))
    dashed = "-" in name and re.search(r"\w", name)
    return bool(camel or dashed or name in CHOSEN)


def snake(name):
    if name in CHOSEN:
        return CHOSEN[name]
    name = re.sub(r"([a-z0-9*])([A-Z])", r"\1_\2", name.replace("-", "_"))
    return re.sub(r"_([A-Z])", lambda m: "_" + m.group(1).lower(), name)


def own_names():
    found = set()
    for path in files((".antt", ".rt")):
        if is_goal_file(path):
            continue
        form = GHOST if path.endswith(".rt") else SIGNATURE
        for line in open(path, encoding="utf-8"):
            m = form.match(line)
            if m and not line.lstrip().startswith("--") and is_old(m.group(1)):
                found.add(m.group(1))
    return found


def of_library(text):
    """The names that a file takes from the library."""
    found = set()
    for m in re.finditer(r"^(?:pub )?(?:ghost )?use ([\w.]+)\.\{([^}]*)\}", text, re.M):
        first = m.group(1).split(".")
        if first[0] == "Rattle" and os.path.isdir(os.path.join(ROOT, first[1])):
            continue
        found.update(w for part in m.group(2).split(",") for w in part.strip().split(" as "))
    return found


def crate_of(path):
    return os.path.relpath(path, ROOT).split(os.sep)[0]


def turn_tokens(text, names):
    return TOKEN.sub(lambda m: snake(m.group(0)) if m.group(0) in names or CAMEL.match(m.group(0)) else m.group(0), text)


def turn_line(line, names, kind):
    """A line with its names turned: in a comment only names in camel case, and none in a string."""
    ghost = re.match(r"\s*(ghost |ensures|requires|prove!)", line)
    if re.match(r"\s*(--|//)", line):
        names = {n for n in names if "-" not in n and n not in CHOSEN}
    if kind == ".rt" and not ghost:
        names = names - {"S"}
        parts = re.split(r'("(?:[^"\\]|\\.)*")', line)
        return "".join(p if p.startswith('"') else turn_tokens(p, names) for p in parts)
    return turn_tokens(line, names)


def main():
    listing = "--list" in sys.argv
    own = own_names()
    if listing:
        for name in sorted(own):
            print(f"{name} -> {snake(name)}")
    for path in files((".antt", ".rt", ".edit")):
        text = open(path, encoding="utf-8").read()
        names = own - of_library(text)
        names = {n for n in names if crate_of(path) in ONLY.get(n, (crate_of(path),))}
        kind = ".rt" if path.endswith((".rt", ".edit")) else ".antt"
        turned = "".join(turn_line(line, names, kind) for line in text.splitlines(keepends=True))
        if listing:
            words = set(TOKEN.findall(text))
            for n in sorted(names & words):
                if snake(n) in words:
                    print(f"look: {path}: {n} and {snake(n)}")
        elif turned != text:
            with open(path, "w", encoding="utf-8") as f:
                f.write(turned)


if __name__ == "__main__":
    main()

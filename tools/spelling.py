#!/usr/bin/env python3
"""Brings this repository's own definitions and lemmas to Rattle's spelling: words in snake case, types and modules in camel case, a dash only
between two names.

usage: python3 tools/spelling.py        at the top of the repository, once, after the kit's port.py

It renames in specs/, proofs/ and the clauses of src/; functions of src/, strings, inputs and outputs keep their names. It prints each name that it
changes, and stops before it writes anything where two names would fall together.
"""
import glob
import os
import re
import subprocess
import sys

# the kit's library, beside the page that `rt doc` names
KIT = os.path.join(os.path.dirname(subprocess.run(["rt", "doc"], capture_output=True, text=True, check=True).stdout.strip()), "rattle")
SPLIT = re.compile(r"([\s()\[\]{},;.`\"λ]+)")
DEFINED = re.compile(
    r"^\s*(?:(?:abbrev|unfoldable|pub|private|data|record|mutual|ruleset)\s+)*([^\s(){}\[\],;.:]+)(?:\s+[({][^)}]*[)}])*\s+:\s"
)
CONSTRUCTOR = re.compile(r"^\s*[|]?\s*(?:pub\s+)?([^\s(){}\[\],;.:]+)\s*:\s")
KEEP = {"+put-number-spec"}
# Lemmas that would have the name of a definition.
LEMMAS = {name: name.replace("-", "_") + "_lem" for name in ("from_start", "is_stuck", "pairs_of", "place_at", "too_long", "work-room")}


def files(pattern):
    return sorted(glob.glob(pattern, recursive=True))


def antt_files():
    return files("crates/*/specs/**/*.antt") + files("crates/*/proofs/**/*.antt")


def generated(path):
    """A proof file of one function: its own names follow the goals, which Rattle names."""
    return os.path.basename(path) == "Proof.antt"


def defined(path):
    out = set()
    with open(path, encoding="utf-8") as f:
        for line in f:
            if line.lstrip().startswith(("--", "use ")):
                continue
            m = DEFINED.match(line) or CONSTRUCTOR.match(line)
            if m:
                out.add(m.group(1))
            m = re.match(r"^\s*(?:pub\s+)?(?:abbrev\s+|unfoldable\s+)?(?:pub\s+)?(?:data|record)\s+(\S+)", line)
            if m:
                out.add(m.group(1))
    return out


def snake(part):
    if not part or not part[0].islower():
        return part
    part = re.sub("getD|^get_d(?=_|$)", "get_or", part)
    part = re.sub(r"(?<=[a-z0-9'])([A-Z])(?=[a-z0-9]|$|[A-Z]|')", lambda m: "_" + m.group(1).lower(), part)
    return part


def kit_names():
    out = set()
    for root in ("std", "core", "std_alloc", "logic", "antt"):
        for path in files(os.path.join(KIT, root, "**", "*.antt")):
            with open(path, encoding="utf-8", errors="replace") as f:
                for line in f:
                    m = re.match(r"^\s*(?:abbrev |unfoldable )?pub (?:data |record )?([A-Za-z_']+)(?: .*)? :", line)
                    if m:
                        out.add(m.group(1))
    return out


def main():
    own, local = set(), set()
    for path in antt_files():
        (local if generated(path) else own).update(defined(path))
    words = {w for w in own if "-" not in w}
    known = {snake(w) for w in words} | kit_names()
    changes = {}
    for name in sorted(own | {n for n in local if re.search("[a-z0-9][A-Z]", n)}):
        if name in KEEP or not name[:1].isalpha():
            continue
        if name in LEMMAS:
            changes[name] = LEMMAS[name]
            continue
        parts = [snake(p) for p in name.split("-")]
        new = parts[0]
        for left, right in zip(parts, parts[1:]):
            new += ("-" if left in known and right in known else "_") + right
        if name in local and name not in own:
            new = "-".join(parts)
        if new != name:
            changes[name] = new
    taken = {}
    bad = False
    for name in sorted(own | local):
        new = changes.get(name, name)
        if new in taken and taken[new] != name and (name in changes or taken[new] in changes):
            print(f"together: {taken[new]} and {name} would both be {new}", file=sys.stderr)
            bad = True
        taken.setdefault(new, name)
    if bad:
        raise SystemExit(1)
    for name, new in changes.items():
        print(f"{name} {new}")
    for path in antt_files() + files("crates/*/src/**/*.rt"):
        with open(path, encoding="utf-8") as f:
            text = f.read()
        pieces = SPLIT.split(text)
        for i in range(0, len(pieces), 2):
            p = pieces[i]
            before = pieces[i - 1] if i else ""
            if p not in changes or path.endswith(".rt") and before.endswith('"'):
                continue
            # behind a dot stands a field of ours, or a name that Rattle makes or that the code has
            if (before.endswith(".") or path.endswith(".rt")) and not re.search("[a-z0-9][A-Z]", p) and "-" not in p:
                continue
            if before.endswith(".") and not re.search("[a-z0-9][A-Z]", p):
                continue
            pieces[i] = changes[p]
        turned = "".join(pieces)
        if turned != text:
            with open(path, "w", encoding="utf-8") as f:
                f.write(turned)


main()

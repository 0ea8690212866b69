#!/usr/bin/env python3
"""Brings the must-fail edits over to the present text, after the kit's port.py and tools/spelling.py have respelled src/ and specs/.

usage: python3 tools/edits.py COMMIT [--write] [PART..]     at the top of the repository

COMMIT is the last one whose edits still stand in its own files. Each edit is read as it was there. Its `old:` is looked for in the file of that
commit, the two files are laid beside one another by tokens, and the text that stands at that place today is the new `old:`. Its `new:` is that
text with the same tokens changed, respelled as the two files show. What can't be done so is printed, one line each, and left for a hand.
PART chooses the edits whose path holds one of these words. Without --write nothing is written.

       python3 tools/edits.py --check [PART..]

says of each edit whether its pairs stand exactly once, one after the other, and which names of a `new:` the file doesn't know.
"""
import difflib
import glob
import os
import re
import subprocess
import sys

CODE = re.compile(r"\w+|[^\w\s]")
CLAUSE = re.compile(r"[^\s(){}\[\],;.\"]+|[(){}\[\],;.\"]")


def words(text, path):
    """The tokens of a text: (token, from, to)."""
    pattern = CLAUSE if path.endswith(".antt") else CODE
    return [(m.group(), m.start(), m.end()) for m in pattern.finditer(text)]


def shown(commit, path):
    done = subprocess.run(["git", "show", f"{commit}:{path}"], capture_output=True, text=True)
    return done.stdout if done.returncode == 0 else None


def read_edit(text):
    """The file that an edit changes, and its pairs."""
    file, olds, news = None, [], []
    for line in text.splitlines():
        if line.startswith("file: "):
            file = line[6:]
        elif line.startswith("old: "):
            olds.append(line[5:])
        elif line.startswith("new: "):
            news.append(line[5:])
    return file, list(zip(olds, news, strict=True))


def blocks(before, after, names):
    """The tokens of the two texts beside one another: equal lines first, then the tokens between them. Yields ranges of token numbers."""

    def by_line(tokens, text):
        out, at = [], 0
        for end in [m.start() for m in re.finditer("\n", text)] + [len(text)]:
            n = at
            while n < len(tokens) and tokens[n][1] < end:
                n += 1
            if n > at:
                out.append((at, n))
            at = n
        return out

    (a, a_text), (b, b_text) = before, after
    a_words = [names.get(t[0], t[0]) for t in a]
    b_words = [t[0] for t in b]
    a_lines, b_lines = by_line(a, a_text), by_line(b, b_text)
    key_a = [tuple(a_words[i:j]) for i, j in a_lines]
    key_b = [tuple(b_words[i:j]) for i, j in b_lines]
    for tag, i1, i2, j1, j2 in difflib.SequenceMatcher(None, key_a, key_b, autojunk=False).get_opcodes():
        if tag == "equal":
            for i, j in zip(range(i1, i2), range(j1, j2)):
                yield "equal", a_lines[i][0], a_lines[i][1], b_lines[j][0], b_lines[j][1]
            continue
        x1, x2 = (a_lines[i1][0], a_lines[i2 - 1][1]) if i1 < i2 else (0, 0)
        y1, y2 = (b_lines[j1][0], b_lines[j2 - 1][1]) if j1 < j2 else (0, 0)
        if x1 == x2 or y1 == y2:
            continue
        for tag, p1, p2, q1, q2 in difflib.SequenceMatcher(None, a_words[x1:x2], b_words[y1:y2], autojunk=False).get_opcodes():
            yield tag, x1 + p1, x1 + p2, y1 + q1, y1 + q2


def learn(a, b, ranges):
    """What each token of the old file reads in the new one, where it always reads the same."""
    votes = {}
    for tag, i1, i2, j1, j2 in ranges:
        if i2 - i1 != j2 - j1:
            continue
        for i, j in zip(range(i1, i2), range(j1, j2)):
            if re.match(r"_*[^\W\d_]", a[i][0]):
                votes.setdefault(a[i][0], {}).setdefault(b[j][0], 0)
                votes[a[i][0]][b[j][0]] += 1
    out = {}
    for word, found in votes.items():
        best = max(found, key=lambda w: found[w])
        if 2 * found[best] > sum(found.values()):
            out[word] = best
    return out


def respelled(text, path, names):
    out, at = "", 0
    for word, start, end in words(text, path):
        out += text[at:start] + names.get(word, word)
        at = end
    out += text[at:]
    return out


def tight(text):
    """Paths and projections of the older spelling, as they are written today."""
    text = re.sub(r"(?<=\w)·(?=\w)", ".", text).replace(".specs.specs.", ".specs.")
    text = re.sub(r"\((\w+'*) (\.\w+)\)", r"\1\2", text)
    return re.sub(r"(?<=[\w')]) (\.\w+)", r"\1", text)


class Beside:
    """One file, as it was and as it is."""

    def __init__(self, before, after, path, global_names):
        self.path, self.before, self.after = path, before, after
        self.a, self.b = words(before, path), words(after, path)
        names = dict(global_names)
        for _ in range(2):
            self.ranges = list(blocks((self.a, before), (self.b, after), names))
            own = learn(self.a, self.b, self.ranges)
            names = {**global_names, **own}
        self.names = names

    def place(self, i, last):
        """The token of the new file that stands where token i of the old one stood."""
        for tag, i1, i2, j1, j2 in self.ranges:
            if i1 <= i < i2 and (tag == "equal" or i2 - i1 == j2 - j1):
                return j1 + i - i1
            if i1 <= i < i2 and j1 < j2:
                if not last and i == i1:
                    return j1
                if last and i == i2 - 1:
                    return j2 - 1
        return None

    def carried(self, old, new):
        at = self.before.find(old)
        if at < 0 or self.before.count(old) != 1:
            raise ValueError("`old:` does not stand once in the old file")
        inside = [n for n, t in enumerate(self.a) if t[1] >= at and t[2] <= at + len(old)]
        if not inside or self.a[inside[0]][1] > at and old[:1] != " " or self.a[inside[-1]][2] < at + len(old) and old[-1:] != " ":
            raise ValueError("`old:` begins or ends within a token")
        first, last = self.place(inside[0], False), self.place(inside[-1], True)
        if first is None or last is None or last < first:
            raise ValueError("no place in the present file")
        text = self.after[self.b[first][1] : self.b[last][2]]
        lead = re.match(" *", old).group()
        trail = re.search(" *$", old).group()
        text = lead + text + trail
        if "\n" in text:
            raise ValueError("the present text has more than one line: " + repr(text))
        if self.after.count(text) != 1:
            raise ValueError(f"the present text stands {self.after.count(text)} times: {text}")
        if respelled(old, self.path, self.names) != text:
            return text, self.by_middle(old, new, text)
        return text, respelled(new, self.path, self.names)

    def by_middle(self, old, new, text):
        """The tokens that `old:` and `new:` share stay as they read today; what lies between them is respelled."""
        o, n = [w[0] for w in words(old, self.path)], words(new, self.path)
        k = 0
        while k < min(len(o), len(n)) and o[k] == n[k][0]:
            k += 1
        m = 0
        while m < min(len(o), len(n)) - k and o[-1 - m] == n[-1 - m][0]:
            m += 1
        t = words(text, self.path)
        own = [self.names.get(w, w) for w in o]
        if [w[0] for w in t][:k] != own[:k] or m and [w[0] for w in t][-m:] != own[-m:]:
            raise ValueError("the present text has other tokens: " + text)
        middle = new[n[k][1] if k < len(n) else len(new) : n[len(n) - m - 1][2]] if k < len(n) - m else ""
        head = text[: t[k][1] if k < len(t) else len(text)]
        tail = text[t[len(t) - m - 1][2] :] if m else ""
        return head + respelled(middle, self.path, self.names) + tail


def edits(parts):
    for path in sorted(glob.glob("crates/*/must-fail/*.edit")):
        if not parts or any(p in path for p in parts):
            yield path, path.split("/")[1]


def global_names(commit):
    listed = subprocess.run(["git", "ls-tree", "-r", "--name-only", commit, "crates"], capture_output=True, text=True, check=True)
    out = {}
    for path in listed.stdout.splitlines():
        if re.search(r"/specs/.*\.antt$", path) and os.path.exists(path):
            with open(path, encoding="utf-8") as f:
                for word, today in Beside(tight(shown(commit, path)), f.read(), path, {}).names.items():
                    if word != today:
                        out.setdefault(word, today)
    return out


def bring(commit, write, parts):
    names = global_names(commit)
    done = left = 0
    for path, crate in edits(parts):
        was = shown(commit, path)
        if was is None:
            print(f"{path}: not in {commit}")
            left += 1
            continue
        file, pairs = read_edit(was)
        file = f"crates/{crate}/{file}"
        before = shown(commit, file)
        try:
            with open(file, encoding="utf-8") as f:
                after = f.read()
            turned = []
            if file.endswith(".antt"):
                before = tight(before)
                pairs = [(tight(old), tight(new)) for old, new in pairs]
            for old, new in pairs:
                old_today, new_today = Beside(before, after, file, names if file.endswith(".antt") else {}).carried(old, new)
                before = before.replace(old, new)
                after = after.replace(old_today, new_today)
                turned.append((old_today, new_today))
        except (OSError, ValueError) as e:
            print(f"{path}: {e}")
            left += 1
            continue
        out, k = [], 0
        for line in was.splitlines(keepends=True):
            if line.startswith("old: "):
                line = f"old: {turned[k][0]}\n"
            elif line.startswith("new: "):
                line = f"new: {turned[k][1]}\n"
                k += 1
            out.append(line)
        done += 1
        if write:
            with open(path, "w", encoding="utf-8") as f:
                f.write("".join(out))
    print(f"{done} carried, {left} left")


RUST = set("if else match let mut for in while loop return break continue true false as use fn pub struct enum u8 u16 u32 u64 usize bool len".split())


def unknown(old, new, file, known):
    """The names of a `new:` that are not in its `old:`, and that neither the file nor what it imports has."""
    new = re.sub(r'b?"[^"]*"', '""', new)
    bound = {v for m in re.finditer(r"λ ([^.]*)\.|let (?:mut )?(\w+)", new) for v in (m.group(1) or m.group(2)).split()}
    bound |= {w[0] for w in words(old, file)}
    for m in re.finditer(r"\bRattle\.(\w+)\.(specs|proofs)\.(\w+)\.([^\s()]+)", new):
        with open(f"crates/{m.group(1)}/{m.group(2)}/{m.group(3)}.antt", encoding="utf-8") as f:
            if not re.search(rf"^\s*(?:unfoldable |abbrev )?pub {re.escape(m.group(4))} ", f.read(), re.M):
                yield m.group()
    new = re.sub(r"\bRattle\.[^\s()]+", "", new)
    for m in re.finditer(r"\b(\w+)::(\w+)", new):
        if m.group() in old:
            continue
        sources = " ".join(open(path, encoding="utf-8").read() for path in glob.glob("crates/*/src/**/*.rt", recursive=True))
        if m.group(1) not in known or not re.search(rf"\b(?:fn|const|mod|struct|enum) {m.group(2)}\b|^\s+{m.group(2)}\b", sources, re.M):
            yield m.group()
    new = re.sub(r"(\w+)::(\w+)", "", new)
    for word, _, _ in words(new, file):
        if re.match(r"[^\W\d]", word) and word not in known | bound | RUST:
            yield word


def check(parts):
    good = bad = 0
    for path, crate in edits(parts):
        with open(path, encoding="utf-8") as f:
            file, pairs = read_edit(f.read())
        file = f"crates/{crate}/{file}"
        with open(file, encoding="utf-8") as f:
            text = f.read()
        known = {w[0] for w in words(re.sub("(?m)(--|//).*$", "", text), file)}
        said = [] if pairs else ["no pair"]
        for old, new in pairs:
            if old == new:
                said.append("`new:` is `old:`")
            if text.count(old) != 1:
                said.append(f"stands {text.count(old)} times: {old}")
            text = text.replace(old, new, 1)
        for old, new in pairs:
            # what a further pair changes again is not in the end
            if new in text:
                said += [f"not in the file: {word}" for word in unknown(old, new, file, known)]
                known |= {m.group(1) for m in re.finditer(r"let (?:mut )?(\w+)", new)}
        for line in said:
            print(f"{path}: {line}")
        bad += bool(said)
        good += not said
    print(f"{good} stand, {bad} don't")
    return bad == 0


def main():
    args = [a for a in sys.argv[1:] if not a.startswith("--")]
    if "--check" in sys.argv:
        raise SystemExit(0 if check(args) else 1)
    if not args:
        raise SystemExit(__doc__)
    bring(args[0], "--write" in sys.argv, args[1:])


main()

#!/usr/bin/env python3
"""Brings the repository's own definitions and lemmas to snake case, after /opt/rattle/port/port.py, which respells only some of them.

usage: snake_names.py COMMIT

COMMIT is the commit in which port.py began. A definition `byteAt` becomes `byte_at`, a lemma `byte-at` becomes `byte_at`, and where a
definition and a lemma would fall together the lemma becomes `byte_at_lem`: where port.py has already made one name of the two, the texts of
COMMIT say which is which. Functions of src/, strings, must-fail edits, and the names that Rattle makes in proofs stay as they are. It prints
the names that it made, and what it could not tell apart.
"""

import collections
import os
import re
import subprocess
import sys

TOKEN = re.compile(r"--[^\n]*|\"(?:[^\"\\]|\\.)*\"|[^\s(){}.;,@\"\[\]«»]+")
DECLARED = re.compile(r"^\s*(?:(?:pub|abbrev|unfoldable|record|data|opaque)\s+)*([^\s:(){}]+)\s*:\s+([^\n]*)", re.M)
OWN = re.compile(r"^(?:pub )?use (Rattle[^{\n]*)\{([^}]*)\}", re.M)
OTHER = re.compile(r"^(?:pub )?use (?!Rattle)[^{\n]*\{([^}]*)\}|^(?:pub )?use Rattle\.std\.[^{\n]*\{([^}]*)\}", re.M)


def snake(name):
    name = name.replace("-", "_")
    return re.sub(r"(?<=[a-z0-9])([A-Z])", lambda m: "_" + m[1].lower(), name)


def is_word(name):
    return re.fullmatch(r"[a-z][A-Za-z0-9_'-]*", name) is not None


def is_old(name):
    return is_word(name) and ("-" in name or re.search("[A-Z]", name) is not None)


def files(root, end):
    for folder, dirs, names in os.walk(os.path.join(root, "crates")):
        dirs[:] = sorted(d for d in dirs if d not in ("out", "must-fail"))
        for name in sorted(names):
            if name.endswith(end):
                yield os.path.join(folder, name)


def read(path):
    with open(path, encoding="utf-8") as it:
        return it.read()


def declared(text):
    """The names that a file declares, and its parameters and bound variables; not the goals that Rattle names."""
    out = {m[1] for m in DECLARED.finditer(text) if not m[2].startswith(("tie.Need", "goal."))}
    for m in re.finditer(r"[({]([^(){}:\n]+) : ", text):
        out |= set(m[1].split())
    for m in re.finditer(r"λ ([^.(\n]+)\.", text):
        out |= set(m[1].split())
    for m in re.finditer(r"\blet ([^\s(]+) ", text):
        out.add(m[1])
    return {n for n in out if is_word(n)}


def foreign(text):
    out = set()
    for m in OTHER.finditer(text):
        for it in (m[1] or m[2]).split(","):
            out.add(it.strip().split(" as ")[-1].strip())
    return out


def git(root, *words):
    r = subprocess.run(["git", *words], cwd=root, capture_output=True, text=True)
    return r.stdout if r.returncode == 0 else None


def tokens(text):
    return [m[0] for m in TOKEN.finditer(text) if not m[0].startswith(("--", '"'))]


def apart(old, new, hyphen, camel, merged, to):
    """The new text with `merged` written `to` where the old one has `hyphen`."""
    kept = camel in tokens(new)
    was = [t for t in tokens(old) if t == hyphen or t == camel and not kept]
    now = [t for t in tokens(new) if t == merged]
    if len(was) != len(now):
        return None
    turn = iter(was)

    def put(m):
        if m[0] != merged:
            return m[0]
        return to if next(turn) == hyphen else merged

    return TOKEN.sub(put, new)


def main(argv):
    if len(argv) != 1:
        print(__doc__)
        return 2
    root = git(".", "rev-parse", "--show-toplevel").strip()
    texts = {p: read(p) for p in files(root, ".antt")}
    olds = {p: git(root, "show", f"{argv[0]}:{os.path.relpath(p, root)}") or "" for p in texts}
    before = set().union(*(declared(t) for t in olds.values()))
    camels = {snake(n): n for n in before if re.search("[A-Z]", n)}
    plain = {n for n in before if "-" not in n and not re.search("[A-Z]", n)}
    lemma = {n: snake(n) + "_lem" for n in before if "-" in n and (snake(n) in camels or snake(n) in plain)}
    # what port.py made one name of two
    for path, text in texts.items():
        for hyphen, to in lemma.items():
            merged = snake(hyphen)
            used = tokens(olds[path])
            if hyphen not in used or hyphen in tokens(text):
                continue
            turned = apart(olds[path], text, hyphen, camels.get(merged, merged), merged, to)
            if turned is None:
                print(f"left: {os.path.relpath(path, root)}: {hyphen} and {camels.get(merged, merged)} are both {merged} now")
            else:
                text = turned
        texts[path] = text
    names = set().union(*(declared(t) for t in texts.values()))
    turn = {n: lemma.get(n, snake(n)) for n in names if is_old(n)}
    fields = {n for t in texts.values() for n in re.findall(r"^ +pub ([a-z][A-Za-z0-9-]*) : ", t, re.M)}
    said = collections.Counter()
    for path, text in texts.items():
        keep = foreign(text)
        goals = {m[1] for m in DECLARED.finditer(text) if m[2].startswith(("tie.Need", "goal."))}

        def put(m):
            t = m[0]
            if t.startswith(('"',)):
                return t
            if t.startswith("--"):
                return re.sub(r"(?<![\w-])[a-z]+[a-z0-9]*[A-Z]\w*", lambda k: turn.get(k[0], k[0]), t)
            if t not in turn or t in keep or t in goals:
                return t
            if m.start() and m.string[m.start() - 1] == "." and m.start() > 1 and not m.string[m.start() - 2].isspace() and "-" in t and t not in fields:
                return t
            said[t] += 1
            return turn[t]

        new = TOKEN.sub(put, text)
        with open(path, "w", encoding="utf-8") as it:
            it.write(new)
    for path in files(root, ".rt"):
        text = read(path)
        # names in camel case stand in clauses, ghost items and comments alone
        new = re.sub(r"\"(?:[^\"\\\n]|\\.)*\"|(?<![\w'])[a-z][a-z0-9]*[A-Z][A-Za-z0-9]*(?![\w'])", lambda m: turn.get(m[0], m[0]), text)
        if new != text:
            with open(path, "w", encoding="utf-8") as it:
                it.write(new)
    for old, to in sorted(turn.items()):
        if said[old]:
            print(old, to)
    return 0


if __name__ == "__main__":
    raise SystemExit(main(sys.argv[1:]))

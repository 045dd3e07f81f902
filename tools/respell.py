#!/usr/bin/env python3
"""Brings this repository's own definitions and lemmas to the spelling of today's Rattle: run once, at the top, right after the kit's port.py.

Words are in snake case. A dash stays in a lemma's name where it joins two functions, as in `length-tabulate`; a plain word is added with `_`.
What the toolchain makes (the steps and the goals of a proof), Rust's names, strings, inputs and outputs keep their spelling.
"""
import collections
import glob
import re
import sys

# functions of std by whose names a lemma begins
STD = "length append take drop map get_or flatten".split()
NAME = r"[^\s(){}\[\];,.«»|]+"
DECLARED = re.compile(
    r"^\s*(?:abbrev |unfoldable |opaque )?(?:pub )?(?:abbrev |unfoldable )?(" + NAME + r") :(?:\s|$)")
TYPES = re.compile(r"^\s*(?:pub )?(?:record|data) (" + NAME + r")")


def files(*patterns):
    found = []
    for pattern in patterns:
        found += glob.glob(pattern, recursive=True)
    return sorted(f for f in set(found) if "/out/" not in f)


def declared(path):
    for line in open(path, encoding="utf-8"):
        if line.lstrip().startswith(("--", "let ", "use ")):
            continue
        for shape in (DECLARED, TYPES):
            m = shape.match(line)
            if m:
                yield m.group(1)


def snake(word):
    """camelCase as snake_case; words that begin with a capital are types and stay."""
    if word[:1].isupper() or not re.search(r"[a-z0-9'][A-Z]", word):
        return word
    word = re.sub(r"([a-z0-9'])([A-Z])", lambda m: m.group(1) + "_" + m.group(2).lower(), word)
    return word


def spelled(name, words):
    parts = [snake(p) for p in name.split("-")]
    rest = "_".join(parts[1:])
    return parts[0] + ("-" if parts[0] in STD and rest in words else "_") + rest if rest else parts[0]


def table():
    specs = files("crates/*/specs/**/*.antt")
    laws = [f for f in files("crates/*/proofs/**/*.antt") if not f.endswith("/Proof.antt")]
    names = set()
    words = set(STD) | {"set", "cons", "cond", "reverse", "replicate"}
    for f in specs:
        for n in declared(f):
            names.add(n)
            if "-" not in n:
                words.add(snake(n))
    for f in laws:
        names.update(declared(f))
    for f in files("crates/*/proofs/**/Proof.antt"):
        names.update(n for n in declared(f) if n.endswith("-spec"))
    names = {n for n in names if re.match(r"[a-z]", n) and not n.startswith("+")}
    new = {}
    for n in names:
        s = n.replace("-", "_") if n.endswith("-spec") else spelled(n, words)
        if s != n:
            new[n] = s
    return names, new


def tokens_of(paths):
    seen = collections.Counter()
    for f in paths:
        for line in open(f, encoding="utf-8"):
            if not line.lstrip().startswith("--"):
                seen.update(re.findall(NAME, re.sub(r"\.[\w+'-]+|[\w+'-]+(?=\.)", "", line)))
    return seen


def settle(names, new):
    """Names that fall together: the lemma gets `_lem`."""
    used = tokens_of(files("crates/*/specs/**/*.antt", "crates/*/proofs/**/*.antt"))
    taken = collections.defaultdict(list)
    for n in names:
        taken[new.get(n, n)].append(n)
    said = []
    for s, olds in sorted(taken.items()):
        if len(olds) > 1:
            said.append(f"together: {s}: {' '.join(sorted(olds))}")
            # the definition keeps the name: it was in camel case
            kept = min(olds, key=lambda o: (o == o.lower(), o != s))
            for o in olds:
                new[o] = s if o == kept else s + "_lem"
        elif olds[0] != s and used.get(s):
            new[olds[0]] = s + "_lem"
            said.append(f"used already: {s}: {olds[0]} ({used[s]})")
    return said


def main():
    names, new = table()
    said = settle(names, new)
    if "--say" in sys.argv:
        print("\n".join(said))
        for o in sorted(new):
            print(o, new[o])
        return
    token = re.compile(NAME)

    def antt(text):
        return token.sub(lambda m: new.get(m.group(0), m.group(0)), text)

    final = {new.get(n, n) for n in names}

    def told(word):
        """a name in a text that no script of the kit reads: port.py may have respelled the thing itself"""
        if word in new:
            return new[word]
        s = "_".join(snake(p) for p in word.split("-"))
        return s if s != word and word not in names and s in final else word

    def quoted(text):
        return re.sub(r"`([^`\n]*)`", lambda m: "`" + token.sub(lambda t: told(t.group(0)), m.group(1)) + "`", text)

    def of_antt(line):
        if line.lstrip().startswith("--"):
            return quoted(line)
        if " -- " in line:
            code, said = line.split(" -- ", 1)
            return antt(code) + " -- " + quoted(said)
        return antt(line)

    clause = re.compile(r"(\"(?:[^\"\\]|\\.)*\")|(//.*)|(" + r"[A-Za-z_][A-Za-z0-9_'-]*" + r")")
    camel = {o: n for o, n in new.items()}

    def of_rt(line):
        def one(m):
            if m.group(1):
                return m.group(1)
            if m.group(2):
                return quoted(m.group(2))
            return camel.get(m.group(3), m.group(3))
        return clause.sub(one, line)

    def of_edit(lines):
        kind = of_rt
        for line in lines:
            if line.startswith("file:"):
                kind = of_antt if line.strip().endswith(".antt") else of_rt
                yield line
            elif line.startswith(("old:", "new:")):
                yield line[:4] + kind(line[4:])
            else:
                yield quoted(line)

    changed = 0
    for f in files("crates/*/specs/**/*.antt", "crates/*/proofs/**/*.antt", "crates/*/src/**/*.rt", "crates/*/must-fail/*.edit", "docs/*.md", "*.md",
                   "second/*.md"):
        if f in ("docs/page-01.md", "docs/page-02.md", "docs/PORT.md", "CHANGELOG.md"):
            continue
        old = open(f, encoding="utf-8").read()
        lines = old.split("\n")
        if f.endswith(".antt"):
            text = "\n".join(map(of_antt, lines))
        elif f.endswith(".rt"):
            text = "\n".join(map(of_rt, lines))
        elif f.endswith(".edit"):
            text = "\n".join(of_edit(lines))
        else:
            text = "\n".join(map(quoted, lines))
        if text != old:
            changed += 1
            open(f, "w", encoding="utf-8").write(text)
    print(f"respell: {len(new)} names, {changed} files")


main()

#!/usr/bin/env python3
"""Brings this repository's own definitions and lemmas to one spelling: snake case.

usage: tools/respell.py [FOLDER]        (the top of a checkout; default: here)

A name is one that a file of crates/*/specs or crates/*/proofs declares, with a small first letter. Humps and
dashes become underscores: countFault reads count_fault. Types keep their capitals. Functions of src/, exported
names and strings keep theirs. Of two names that fall together the one with dashes, a lemma, gets the ending _lem.
The script stops, and changes nothing, where that doesn't part them or where a library's name would be turned.
"""
import collections
import glob
import os
import re
import sys

TOP = sys.argv[1] if len(sys.argv) > 1 else "."
WORD = re.compile(r"[^\s(){}.;,:@\"«»\[\]\\]+|:[^\s(){}.;,@\"«»\[\]\\]*")
DECLARED = re.compile(r"^\s*(?:(?:pub|unfoldable|abbrev|record|data|opaque)\s+)*([^\s:(){}=]+(?: [^\s:(){}=|λ]+)*) (?:[({][^(){}]*[)}] )*:(?: |$)")

# A name that meets another of the same spelling takes this ending: a lemma beside its definition.
LEMMA = "_lem"
# Three that meet a lemma in another form.
OTHER = {"countForm": "count_formless", "pressOrder": "order_of_press", "greedyOrder": "order_of_greedy"}


def read(path):
    with open(path, encoding="utf-8", newline="") as it:
        return it.read()


def write(path, text):
    with open(path, "w", encoding="utf-8", newline="") as it:
        it.write(text)


def snake(name):
    out = re.sub(r"([a-z0-9])([A-Z])", lambda m: m[1] + "_" + m[2].lower(), name)
    return out.replace("-", "_")


def declared():
    """The names that the repository declares, at any depth, with the files of each."""
    out = collections.defaultdict(set)
    for path in antt():
        if path.endswith("/Proof.antt"):
            continue
        of_a_function = re.search(r"/proofs/.+/[^/]+$", path)
        for line in read(path).split("\n"):
            if line.lstrip().startswith("--") or (of_a_function and ("goal." in line or line[:1] == " ")):
                continue
            m = DECLARED.match(line)
            for name in m[1].split(" ") if m else []:
                if name and (name[0].islower() or name[0] == "◌"):
                    out[name].add(path)
    return out


def antt():
    return sorted(p for p in glob.glob(TOP + "/crates/**/*.antt", recursive=True) if "/out/" not in p)


def main():
    own = declared()
    turn = {name: OTHER.get(name, snake(name)) for name in own if snake(name) != name}
    met = collections.defaultdict(list)
    for name, new in turn.items():
        met[new].append(name)
    for new, names in met.items():
        if len(names) > 1 or new in own:
            for name in names:
                if "-" in name:
                    turn[name] = new + LEMMA
    wrong = [n for n, k in collections.Counter(turn.values()).items() if k > 1]
    # A word that stands already in a file of the name, as a variable there, would be caught.
    for path in antt():
        if path.endswith("/Proof.antt"):
            continue
        text = re.sub(r"--[^\n]*", "", read(path))
        words = set(m[0] for m in re.finditer(r"(?<!\.)" + WORD.pattern, text))
        wrong += ["%s in %s" % (turn[w], path) for w in words if w in turn and turn[w] in words]
        for m in re.finditer(r"^(?:pub )?use ([^\s{]+)\.\{([^}]*)\}", text, re.M):
            if not os.path.isdir(TOP + "/crates/" + (m[1].split(".") + [""])[1]):
                wrong += ["%s of %s in %s" % (w, m[1], path) for w in m[2].replace(",", " ").split() if w in turn]
    for it in wrong:
        print("falls together:", it)
    if wrong or "--list" in sys.argv:
        return len(wrong)
    ops = {}
    for name in list(turn):
        if name.startswith("◌") and name.endswith("◌"):
            ops[name.strip("◌")] = turn[name].strip("◌")
    turn.update(ops)

    # In the proof of a function the names of its goals and steps stay.
    def turned(text, goals=()):
        def one(m):
            if goals and (m[0] in goals or re.search(r"(?<![^\s(){},;])[cl]\.(?:initial\.)?$", text[max(0, m.start() - 12):m.start()])):
                return m[0]
            return turn.get(m[0], m[0])

        return WORD.sub(one, text)

    many = 0
    for path in sorted(glob.glob(TOP + "/crates/**/*.antt", recursive=True) + glob.glob(TOP + "/crates/**/*.rt", recursive=True)):
        if "/out/" in path:
            continue
        text = read(path)
        if path.endswith(".rt"):
            # strings keep their letters
            parts = re.split(r'("(?:[^"\\\n]|\\.)*")', text)
            new = "".join(p if k % 2 else turned(p) for k, p in enumerate(parts))
        else:
            goals = set(re.findall(r"goal\.([^\s(){}.;,]+)", text)) if re.search(r"/proofs/.+/[^/]+$", path) else ()
            new = turned(text, goals)
        if new != text:
            write(path, new)
            many += 1
    for path in sorted(glob.glob(TOP + "/crates/*/must-fail/*.edit")):
        text = read(path)
        new = "\n".join(turned(l) if l.startswith(("old:", "new:")) else l for l in text.split("\n"))
        if new != text:
            write(path, new)
            many += 1
    print("respelled:", len(turn), "names in", many, "files")
    return 0


sys.exit(main())

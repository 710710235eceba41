#!/usr/bin/env python3
"""Counts forms of code in crates/*/src, at a commit or in the tree.

    tools/forms.py [COMMIT]

The numbers before the forms are the points of docs/DESIGN-PASS.md. Comments, `ghost use` and clauses count only
where a form is about clauses. A number alone says nothing: the page says which places stay and why.
"""
import re
import subprocess
import sys

FORMS = [
    # point, what, regular expression, where: code, clauses or comments
    ("1", "own enum of the shape of Option or Result", r"^(?:pub )?enum (?:Next|Amount|PathLine|GuardLine|OrderLine|Step|Part|Whole)\b", "code"),
    ("1", "flag with a value beside it", r"^    pub found: bool", "code"),
    ("1", "number of a refusal written", r"\bREFUSED_\w+", "code"),
    ("1", "number of a refusal tested", r"\.number (?:!=|==) 0", "code"),
    ("1", "number put into a C struct by hand", r"^ +number: ", "code"),
    ("3", "while", r"\bwhile\b", "code"),
    ("3", "index counted by hand", r"^ +[a-z]\w* (?:\+|-)= 1;", "code"),
    ("4", "`as` conversion", r" as (?:u8|u16|u32|u64|usize|i32|f64)\b", "code"),
    ("5", "n, widths and guards passed together", r"n: usize,\s+widths: &(?:'a )?\[u16\],\s+guards: &(?:'a )?\[u8\]", "text"),
    ("5", "n is at most 128, in a contract", r"n ≤ 128", "clauses"),
    ("5", "a table of labels has its size, in a contract", r"length labels\.(?:now|old) ≡ 1024", "clauses"),
    ("5", "a table of guards has its size, in a contract", r"length guards\.(?:now|old) ≡ 16384", "clauses"),
    ("5", "a network within its limits, in a contract", r"Network n \(lend", "clauses"),
    ("5", "starts within their limits, in a contract", r"Starts n starts\.", "clauses"),
    ("6", "text with a place in it, passed together", r"text: &(?:'a )?(?:mut )?\[u8\],\s+place: usize", "text"),
    ("6", "text, place and end passed together", r"text: &(?:'a )?\[u8\],\s+place: usize,\s+end: usize", "text"),
    ("6", "heads, owns and ups passed together", r"heads: &(?:mut )?\[u8\],\s+owns: &(?:mut )?\[u8\],\s+ups: &(?:mut )?\[u8\]", "text"),
    ("7", "bool that says which test or class to run", r"(?:mirror|label): bool", "code"),
]


def run(*words):
    return subprocess.run(words, check=True, capture_output=True, text=True).stdout


def sources(commit):
    if commit:
        names = run("git", "ls-tree", "-r", "--name-only", commit, "crates").split()
    else:
        names = run("git", "ls-files", "crates").split()
    for name in names:
        if re.fullmatch(r"crates/\w+/src/\w+\.rt", name):
            text = run("git", "show", f"{commit}:{name}") if commit else open(name, encoding="utf-8").read()
            yield name.split("/")[1], text


def parts(text):
    """The code of a file without comments and clauses, and its clauses."""
    text = re.sub(r"^\s*//.*$", "", text, flags=re.M)
    text = re.sub(r"^ghost use .*$", "", text, flags=re.M)
    code, clauses, at = [], [], 0
    for found in re.finditer(r"^ +(?:requires|ensures)\b[^{\n]*\{", text, flags=re.M):
        if found.start() < at:
            continue
        end, depth = found.end(), 1
        while depth:
            depth += {"{": 1, "}": -1}.get(text[end], 0)
            end += 1
        code.append(text[at:found.start()])
        clauses.append(text[found.start():end])
        at = end
    code.append(text[at:])
    return "".join(code), "\n".join(clauses)


def main():
    commit = sys.argv[1] if len(sys.argv) > 1 else None
    files = [(crate, *parts(text)) for crate, text in sources(commit)]
    for point, what, form, where in FORMS:
        counts = {}
        for crate, code, clauses in files:
            body = clauses if where == "clauses" else code
            found = len(re.findall(form, body, flags=re.M))
            if found:
                counts[crate] = counts.get(crate, 0) + found
        print(f"{point}  {sum(counts.values()):3d}  {what}: " + ", ".join(f"{c} {k}" for c, k in counts.items()))


if __name__ == "__main__":
    main()

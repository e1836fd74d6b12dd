#!/usr/bin/env python3
"""Counts the places where the code has an older form:  tools/forms.py [COMMIT]  (docs/DESIGN-PASS.md says what each count is of).

Without a commit it reads the files as they stand. With --list each place is printed.
"""
import collections
import glob
import re
import subprocess
import sys

listing = "--list" in sys.argv
commits = [a for a in sys.argv[1:] if not a.startswith("-")]


def git(*words):
    return subprocess.run(["git", *words], capture_output=True, text=True, check=True).stdout


def files(pattern):
    """Each file whose path matches, with its text."""
    if commits:
        names = [n for n in git("ls-tree", "-r", "--name-only", commits[0]).splitlines() if re.fullmatch(pattern, n)]
        return {n: git("show", f"{commits[0]}:{n}") for n in names}
    names = [n for n in glob.glob("crates/**/*", recursive=True) if re.fullmatch(pattern, n) and "/out/" not in n]
    return {n: open(n).read() for n in sorted(names)}


source = files(r"crates/\w+/src/.*\.rt")
functions = []  # file, line, name, parameters, body
for name, text in source.items():
    for m in re.finditer(r'^ *(?:pub )?(?:extern "C" )?fn (\w+)(?:<[^>{]*>)?\(([^)]*)\)', text, re.M):
        start = re.compile(r"^ *\{$|\) \{$|[\w>\]] \{$", re.M).search(text, m.end() - 1)
        if start is None:
            continue
        depth, i = 1, start.end()
        while depth and i < len(text):
            depth += {"{": 1, "}": -1}.get(text[i], 0)
            i += 1
        parameters = [p for p in m.group(2).split(",") if p.strip()]
        functions.append((name, text.count("\n", 0, m.start()) + 1, m.group(1), parameters, text[start.end() : i - 1]))


def lines(pattern, skip=None):
    return [
        f"{name}:{i}: {line.strip()}"
        for name, text in source.items()
        for i, line in enumerate(text.splitlines(), 1)
        if re.search(pattern, line) and not (skip and re.search(skip, line))
    ]


def shape(body):
    """A body without its names and numbers, so that twins have one shape."""
    seen, out = {}, []
    words = r"if|else|match|while|for|in|loop|return|let|mut|as|true|false|break"
    for word in re.findall(r"[A-Za-z_]\w*|\d[\w.]*|\S", re.sub(r"//.*", "", body)):
        if re.fullmatch(words, word):
            out.append(word)
        elif re.match(r"[A-Za-z_]", word):
            out.append(f"v{seen.setdefault(word, len(seen))}")
        else:
            out.append("0" if word[0].isdigit() else word)
    return " ".join(out)


shapes = collections.defaultdict(list)
for name, line, function, _, body in functions:
    if len(shape(body).split()) > 25:
        shapes[shape(body)].append(f"{name}:{line}: {function}")

counts = {
    "1 enums of our own": lines(r"^(pub )?enum "),
    "1 codes: constants that name the cases of a number": lines(r"^(pub )?const [A-Z_]+: u(8|16) = "),
    "1 a number for none, as the comment above says": lines(
        r"^ *// .*(\b0 where|\b0 for|\b0 past|\b0 there|512 where|255, which|256 if|or n[,.:]|n where|or `count`|far behind|or the map's length|just past its words|NONE where)"
    ),
    "2 functions of one shape": [" = ".join(group) for group in shapes.values() if len(group) > 1],
    "3 while and loop": lines(r"^ *('\w+: )?(while|loop)\b"),
    "3 for over a range": lines(r"^ *('\w+: )?for \w+ in .*\.\."),
    "4 functions that only convert": [
        f"{name}:{line}: {function}"
        for name, line, function, parameters, body in functions
        if len(parameters) == 1 and (re.fullmatch(r"\s*\w+ as \w+\s*", body) or re.fullmatch(r"\s*match \w+ \{.*\}\s*", body, re.S))
    ],
    "5 functions of six parameters or more": [f"{n}:{l}: {f} ({len(p)})" for n, l, f, p, _ in functions if len(p) >= 6],
    "5 facts on the length of a parameter in a clause": [m for t in source.values() for m in re.findall(r"length [\w.]+ (?:≡|≤) \d+", t)],
    "6 arrays of numbers": lines(r"= \[(0|0u\w+|false|NONE); "),
    "7 parameters that switch": [f"{n}:{l}: {f}: {p.strip()}" for n, l, f, ps, _ in functions for p in ps if re.search(r": bool$", p)],
}
for what, places in counts.items():
    print(f"{len(places):4}  {what}")
    if listing:
        for place in places:
            print(f"        {place}")
proofs = files(r"crates/\w+/proofs/.*\.antt")
answers = {n: t for n, t in proofs.items() if n.endswith("/Answers.antt")}
print(f"{len(answers):4}  8 files of answers, with {sum(len(re.findall(r'^pub ', t, re.M)) for t in answers.values())} answers")
print(f"{len(proofs):4}  8 proof files, with {sum(t.count(chr(10)) for t in proofs.values())} lines")
print(f"{len(functions):4}  functions, in {sum(t.count(chr(10)) for t in source.values())} lines of src/")

#!/usr/bin/env python3
"""Brings this repository's own definitions and lemmas to today's spelling: words in snake case, types in camel case.

usage: tools/respell.py            at the top of a checkout in which port.py has just run and whose HEAD is the commit from before it

A name's new spelling is fixed by its old one: a dash and a hump become an underscore. Where a definition and a lemma fall together so, the lemma gets
`_lem` behind it. port.py has turned some names already; which of two names a turned word was is read from the old text, in which the same words stand
in the same order. Names of the library, names of src/ and names that the prover makes are left as they are.
"""
import collections
import os
import re
import subprocess
import sys

IDENT = r"[^\s(){}\[\];,.:λ∀\"⌜⌝`·]+"
WORD = re.compile(IDENT)
DECLARED = re.compile(r"^\s*(?:(?:pub|abbrev|unfoldable|opaque|private|macro)\s+)*((?:" + IDENT + r"\s+)+?)(?:\{[^}]*\}\s*)*:\s")
HEAD = re.compile(r"^\s*(?:(?:pub|abbrev|unfoldable)\s+)*(?:record|data|ruleset)\s+(" + IDENT + r")")
USE = re.compile(r"(?:ghost )?use ([^\s{]+)\.\{([^}]*)\}")
# A law whose name would be that of a word of the library that stands beside it.
OTHER = {"bit-or": "bit_of_or"}
# Names that no declaration begins with: arguments, and what an import is called.
BOUND = ["inReport", "room-left", "stands-own", "id-is", "in-range", "takeN", "takeStep", "putRec", "placeStep", "Whole-here"]


def snake(name):
    if name[0].isupper() and name != "Whole-here":
        parts = name.split("-")
        return "".join(p[0].upper() + p[1:] for p in parts) if len(parts[0]) > 1 else "_".join(parts)
    name = name[0].lower() + name[1:]
    name = re.sub(r"([a-z0-9])([A-Z])", lambda m: m.group(1) + "_" + m.group(2).lower(), name.replace("-", "_"))
    return re.sub(r"(^|_)get_d(?=_|$)", r"\1get_or", name)


def odd(name):
    return re.match(r"^[A-Za-z]", name) and (("-" in name) or (name[0].islower() and re.search(r"[A-Z]", name)))


def files(root, endings):
    for folder, dirs, names in os.walk(root):
        dirs[:] = sorted(d for d in dirs if d != "out")
        for n in sorted(names):
            if n.endswith(endings):
                yield os.path.join(folder, n)


def old_text(path):
    r = subprocess.run(["git", "show", "HEAD:" + path], capture_output=True)
    return r.stdout.decode() if r.returncode == 0 else None


def code_of(line, comment):
    at = line.find(comment)
    while at > 0 and line[at - 1] not in " \t":
        at = line.find(comment, at + 1)
    return (line, "") if at < 0 else (line[:at], line[at:])


def declared():
    found = collections.defaultdict(set)
    listing = subprocess.run(["git", "ls-tree", "-r", "--name-only", "HEAD", "crates"], capture_output=True, text=True, check=True).stdout.split()
    for path in listing:
        if not path.endswith(".antt") or path.endswith("Proof.antt"):
            continue
        for line in old_text(path).splitlines():
            line = code_of(line, "--")[0]
            head = HEAD.match(line)
            names = [head.group(1)] if head else []
            m = DECLARED.match(line)
            if m:
                names += m.group(1).split()
            for n in names:
                if re.match(r"^[A-Za-z]", n) and n not in ("record", "data", "module", "where", "let"):
                    found[n].add(path)
    for n in BOUND:
        found[n].add("")
    return found


def of_library(text, crates):
    names = set()
    for m in USE.finditer(text):
        head = re.split(r"[.·]", m.group(1))
        if head[0] == "Rattle" and len(head) > 1 and head[1] in crates:
            continue
        names |= {n.split(" as ")[0].strip() for n in m.group(2).split(",")}
    return names


class Names:
    def __init__(self):
        self.crates = set(os.listdir("crates"))
        self.found = declared()
        self.by_new = collections.defaultdict(set)
        for n in self.found:
            self.by_new[snake(n)].add(n)
        self.final = {}
        self.said = []
        for new, olds in self.by_new.items():
            for n in olds:
                falls = len(olds) > 1 and "-" in n
                self.final[n] = OTHER.get(n) or (new + "_lem" if falls else new)
        self.shared = {new for new, olds in self.by_new.items() if len({self.final[n] for n in olds}) > 1}

    def turn(self, path):
        text = open(path, encoding="utf-8").read()
        old = old_text(path)
        rust = path.endswith(".rt")
        comment = "//" if rust else "--"
        library = of_library(text, self.crates)
        olds = collections.defaultdict(list)
        for line in (old or "").splitlines():
            for w in WORD.findall(code_of(line, comment)[0]):
                if snake(w) in self.shared:
                    olds[snake(w)].append(w)
        news = collections.Counter()
        for line in text.splitlines():
            for w in WORD.findall(code_of(line, comment)[0]):
                if snake(w) in self.shared:
                    news[snake(w)] += 1
        seen = collections.Counter()
        for s in news:
            if news[s] != len(olds[s]):
                self.said.append(f"by hand: {path}: {s} stands {news[s]} times, and {len(olds[s])} times in the old text: {sorted(set(olds[s]))}")

        def word(w, said):
            s = snake(w)
            if s in self.shared:
                k = seen[s]
                seen[s] += not said
                if said:
                    return self.final.get(w, w)
                if news[s] == len(olds[s]):
                    return self.final.get(olds[s][k], w)
                return w
            if w in library or s not in self.by_new:
                return w
            if not odd(w) and w not in self.found:
                return w
            if path.endswith("Proof.antt") and w not in self.found and snake(w) == w:
                return w
            return self.final[next(iter(self.by_new[s]))]

        out = []
        for line in text.splitlines(keepends=True):
            code, rest = code_of(line, comment)
            if rust:
                parts = re.split(r'("(?:[^"\\]|\\.)*")', code)
                code = "".join(p if i % 2 else WORD.sub(lambda m: word(m.group(), False), p) for i, p in enumerate(parts))
            else:
                code = WORD.sub(lambda m: word(m.group(), False), code)
            out.append(code + self.prose(rest))
        return "".join(out)

    def prose(self, text):
        def plain(m):
            w = m.group()
            return self.final[w] if w in self.final and w[0].islower() and re.search(r"[A-Z]", w) else w

        def ticked(m):
            return self.final.get(m.group(), m.group()) if odd(m.group()) else m.group()

        parts = re.split(r"(`[^`]*`)", text)
        return "".join(WORD.sub(ticked if i % 2 else plain, p) for i, p in enumerate(parts))


def main():
    names = Names()
    for path in list(files("crates", (".antt", ".rt"))):
        new = names.turn(path)
        with open(path, "w", encoding="utf-8") as f:
            f.write(new)
    for path in list(files("crates", (".edit",))) + list(files("edits", (".edit",))):
        text = open(path, encoding="utf-8").read()
        new = "\n".join(WORD.sub(lambda k: names.final.get(k.group(), k.group()) if odd(k.group()) else k.group(), l) if l.startswith(("old:", "new:")) and "specs/" in text else l for l in text.split("\n"))
        with open(path, "w", encoding="utf-8") as f:
            f.write(new)
    for path in list(files("docs", (".md",))) + ["README.md"]:
        text = open(path, encoding="utf-8").read()
        with open(path, "w", encoding="utf-8") as f:
            f.write(names.prose(text))
    print("\n".join(names.said))


if __name__ == "__main__":
    sys.exit(main())

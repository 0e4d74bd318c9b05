#!/usr/bin/env python3
"""Respells this repository's own definitions and lemmas as today's Rattle writes names: words in snake case, types and modules in camel case.

usage: tools/port/respell.py [MAP..]    at the top, once, right after the port.py of the kit

A name is respelled where a file of specs/ or proofs/ declares it and no library declares it too. The maps are names.tsv and names-2.tsv beside this file, one
after the other, or those that are given; names.tsv was made by `make_map`, on the first run. Where a definition and a lemma would get one name, the lemma gets
`_law` after its name. Strings and plain comments of .rt files stay; must-fail edits are respelled with the text that they replace.
"""
import collections
import os
import re
import subprocess
import sys

HERE = os.path.dirname(os.path.realpath(__file__))
MAP = os.path.join(HERE, "names.tsv")
MAPS = [MAP, os.path.join(HERE, "names-2.tsv")]
WORD = re.compile(r"[A-Za-z_][A-Za-z0-9_'₀-₉]*(?:-[A-Za-z0-9_'₀-₉]+)*")
DECLARED = re.compile(r"^\s*(?:(?:unfoldable|abbrev|pub|opaque|private|instance|record|data)\s+)*([a-z_][A-Za-z0-9_'₀-₉]*(?:-[A-Za-z0-9_'₀-₉]+)*)(?:\s*[({].*)?\s+:(?:\s|$)")
IMPORT = re.compile(r"^\s*(?:pub )?(?:ghost )?use ([^\s{]+)\.\{(.*)\}", re.M)


def files(ends):
    for folder, dirs, names in os.walk("crates"):
        dirs[:] = sorted(d for d in dirs if d != "out")
        for name in sorted(names):
            if name.endswith(ends):
                yield os.path.join(folder, name)


def text_of(path):
    with open(path, encoding="utf-8") as f:
        return f.read()


def snake(name):
    name = name.replace("-", "_")
    return re.sub(r"([a-z0-9])([A-Z])", lambda m: m.group(1) + "_" + m.group(2).lower(), name)


def old_form(name):
    return "-" in name or re.search(r"[a-z0-9][A-Z]", name) is not None


def make_map():
    """The map of names, as the declarations of specs/ and of the files of lemmas have them."""
    own = {c for c in os.listdir("crates")}
    declared, imported, words = collections.Counter(), set(), collections.Counter()
    for path in files((".antt", ".rt")):
        text = text_of(path)
        words.update(set(WORD.findall(text)))
        for module, names in IMPORT.findall(text):
            parts = module.split(".")
            if not (parts[0] == "Rattle" and len(parts) > 1 and parts[1] in own):
                imported.update(n.strip() for n in names.split(","))
        if path.endswith(".antt") and os.path.basename(path) not in ("Proof.antt", "Invariants.antt", "Answers.antt"):
            for line in text.splitlines():
                m = DECLARED.match(line)
                if m:
                    declared[m.group(1)] += 1
    names = sorted(n for n in declared if old_form(n) and n not in imported)
    left = sorted(n for n in declared if old_form(n) and n in imported)
    to = {n: snake(n) for n in names}
    taken = collections.defaultdict(list)
    for n in names:
        taken[to[n]].append(n)
    for target, olds in taken.items():
        camel = [n for n in olds if "-" not in n]
        lemmas = [n for n in olds if "-" in n]
        if len(olds) > 1:
            assert len(camel) == 1 and len(lemmas) == 1, olds
            to[lemmas[0]] = target + "_law"
        elif target in declared:
            if "-" in olds[0]:
                to[olds[0]] = target + "_law"  # the definition has the name already
            else:
                to[target] = target + "_law"  # a lemma has it: port.py had respelled it, or it had one word
    return to, left


def respell(text, to):
    def new(m):
        word = m.group(0)
        if not old_form(word) and (text[m.start() - 1 : m.start()] == "." or text[m.end() : m.end() + 1] == "."):
            return word  # a function of src/ in a path, or what a proof knows of its call
        return to.get(word, word)

    return WORD.sub(new, text)


def respell_code(text, to):
    """Rattle code: strings and comments stay, but for names in backticks. So do words in snake case, which are functions here and no lemmas."""
    to = {a: b for a, b in to.items() if old_form(a)}
    out = []
    for line in text.split("\n"):
        parts = re.split(r'("(?:[^"\\]|\\.)*"|//.*$)', line)
        for i, part in enumerate(parts):
            if i % 2 == 0:
                parts[i] = respell(part, to)
            elif part.startswith("//"):
                parts[i] = re.sub(r"`[^`]*`", lambda m: respell(m.group(0), to), part)
        out.append("".join(parts))
    return "\n".join(out)


def respell_antt(text, to):
    """Definitions and proofs: comments stay, but for names in backticks."""
    out = []
    for line in text.split("\n"):
        m = re.match(r"^(.*?)(\s*--(?:\s.*)?)$", line) if re.search(r"(?:^|\s)--(?:\s|$)", line) else None
        if m:
            out.append(respell(m.group(1), to) + re.sub(r"`[^`]*`", lambda b: respell(b.group(0), to), m.group(2)))
        else:
            out.append(respell(line, to))
    return "\n".join(out)


def main(maps):
    if not os.path.exists(MAP):
        to, left = make_map()
        with open(MAP, "w", encoding="utf-8") as f:
            f.writelines(f"{a}\t{b}\n" for a, b in sorted(to.items()))
        print("left, as a library has the name too:", ", ".join(left))
    for it in maps or MAPS:
        with open(it, encoding="utf-8") as f:
            apply(dict(line.rstrip("\n").split("\t") for line in f if line.strip()))
    for crate in sorted(os.listdir("crates")):
        if os.path.isdir(os.path.join("crates", crate, "src")):
            subprocess.run(["rt", "fmt"], cwd=os.path.join("crates", crate), stdout=subprocess.DEVNULL, check=True)


def apply(to):
    n = 0
    for path in files((".antt", ".rt", ".edit")):
        text = text_of(path)
        if path.endswith(".rt"):
            new = respell_code(text, to)
        elif path.endswith(".edit"):
            new = respell(text, to if re.search(r"(?m)^file: *(?:specs|proofs)/", text) else {a: b for a, b in to.items() if old_form(a)})
        else:
            new = respell_antt(text, to)
        if new != text:
            n += 1
            with open(path, "w", encoding="utf-8") as f:
                f.write(new)
    print(f"{len(to)} names, {n} files")


if __name__ == "__main__":
    sys.exit(main(sys.argv[1:]))

#!/usr/bin/env python3
"""Turns a crate's proof files of the older form, Proof.antt over the generated `Tie`, into Invariants.antt and Answers.antt.

usage: tools/port/answers.py CRATE..    at the top; every crate below is proved already

Asks `rt check --generated FOLDER --old-names` for each goal's and each step's old and new name. An answer that was only `search rules` goes, since the check
tries that by itself. What a pair said of several clauses is a record of the clauses' names now. Files that do not go by `Tie` stay as they are.
"""
import json
import os
import re
import subprocess
import sys
import tempfile

IDENT = r"[A-Za-z_][A-Za-z0-9_'₀-₉]*(?:-[A-Za-z0-9_'₀-₉]+)*"


def norm(name):
    return name.replace("_", "-")


def read(path):
    with open(path, encoding="utf-8") as f:
        return f.read()


def clauses_of_sources():
    """{function: (labels of requires, labels of ensures)}, the functions by their whole paths; a lone clause has the label None."""
    found = {}
    for crate in sorted(os.listdir("crates")):
        src = os.path.join("crates", crate, "src")
        for folder, dirs, files in os.walk(src):
            for file in files:
                if not file.endswith(".rt"):
                    continue
                path = os.path.relpath(os.path.join(folder, file), src)[:-3].split(os.sep)
                module = [crate] + ([] if path in (["lib"], ["main"]) else path)
                text = read(os.path.join(folder, file))
                for m in re.finditer(r"(?m)^[ ]*(?:pub(?:\([a-z]+\))? )?(?:const )?(?:unsafe )?(?:extern \"C\" )?fn (\w+)", text):
                    req, ens = [], []
                    for line in text[m.end():].split("\n")[0:]:
                        if line.rstrip() == "{" or re.match(r"^\s*\{\s*$", line):
                            break
                        c = re.match(r"^\s*(requires|ensures)\*? ?(\w+)? ?\{", line)
                        if c:
                            (req if c.group(1) == "requires" else ens).append(c.group(2))
                    found["::".join(module + [m.group(1)])] = (req, ens)
    return found


def blocks_of(text):
    """The declarations of a proof file: each is the list of its lines, with its comments before it."""
    blocks, now = [], []
    for line in text.split("\n"):
        starts = bool(line) and not line[0].isspace() and line[0] not in ")]}"
        if starts and not line.startswith("--"):
            head = re.match(rf"(?:abbrev |pub |unfoldable )*({IDENT})", line)
            same = now and any(l and not l[0].isspace() and not l.startswith("--") for l in now)
            name = head.group(1) if head else line
            if same:
                first = next(l for l in now if l and not l[0].isspace() and not l.startswith("--"))
                was = re.match(rf"(?:abbrev |pub |unfoldable )*({IDENT})", first)
                if (was and was.group(1) == name) or line.startswith("unfolding"):
                    now.append(line)
                    continue
                blocks.append(now)
                now = []
        elif line.startswith("--") and any(l and not l[0].isspace() and not l.startswith("--") for l in now):
            blocks.append(now)
            now = []
        now.append(line)
    if now:
        blocks.append(now)
    return blocks


def closing(text, at):
    """The index of the bracket that closes the one at `at`."""
    pairs, stack = {"(": ")", "{": "}", "[": "]"}, []
    for i in range(at, len(text)):
        if text[i] in pairs:
            stack.append(pairs[text[i]])
        elif stack and text[i] == stack[-1]:
            stack.pop()
            if not stack:
                return i
    return -1


def parts_of(text):
    """The parts of `(a, b, ..)`, or None where the text is no tuple as a whole."""
    text = text.strip()
    if not text.startswith("(") or closing(text, 0) != len(text) - 1:
        return None
    inner, parts, depth, start = text[1:-1], [], 0, 0
    for i, ch in enumerate(inner):
        if ch in "([{":
            depth += 1
        elif ch in ")]}":
            depth -= 1
        elif ch == "," and depth == 0:
            parts.append(inner[start:i])
            start = i + 1
    parts.append(inner[start:])
    if parts and not parts[-1].strip():
        parts.pop()
    return [p.strip() for p in parts] if len(parts) > 1 else None


def split_lets(body):
    """(the `let .. in` part, the rest)."""
    lets = ""
    rest = body
    while True:
        m = re.match(r"\s*let\b", rest)
        if not m:
            return lets, rest
        depth, nest, i = 0, 0, m.end()
        while i < len(rest):
            ch = rest[i]
            if ch in "([{":
                depth += 1
            elif ch in ")]}":
                depth -= 1
            elif depth == 0 and re.match(r"\blet\b", rest[i:]) and not re.match(r"[\w'-]", rest[i - 1]):
                nest += 1
            elif depth == 0 and re.match(r"in(?![\w'-])", rest[i:]) and not re.match(r"[\w'.-]", rest[i - 1]):
                if nest == 0:
                    break
                nest -= 1
            i += 1
        if i >= len(rest):
            return lets, rest
        lets += rest[: i + 2]
        rest = rest[i + 2 :]


def as_record(body, labels):
    """The answer to a goal of several clauses: a record by their names, from a pair or from a term that is one."""
    lets, rest = split_lets(body)
    if "search" == rest.strip().split(" ")[0]:
        return body
    parts, left = [], rest
    while len(parts) < len(labels) - 1:
        two = parts_of(left)
        if two is None:
            break
        if len(two) > 2:
            two = [two[0], "(" + ", ".join(two[1:]) + ")"]
        parts.append(two[0])
        left = two[1]
    if len(parts) == len(labels) - 1:
        parts.append(left.strip())
    elif not parts:
        lets += (" " if lets else "") + "let all = " + rest.strip() + " in"
        parts = ["all" + ".1" * i + (".0" if i < len(labels) - 1 else "") for i in range(len(labels))]
    else:
        lets += (" " if lets else "") + "let rest = " + left.strip() + " in"
        k = len(labels) - len(parts)
        parts += ["rest" + ".1" * i + (".0" if i < k - 1 else "") for i in range(k)]
    return lets + (" " if lets else "") + "record { " + "; ".join(f"{l} = {p}" for l, p in zip(labels, parts)) + " }"


def by_label(text, path, labels):
    """`PATH.1.0` by the clauses' names."""
    n = len(labels)

    def turn(m):
        at = m.group(2)
        steps = [s for s in at.split(".") if s]
        k = 0
        while k < n - 1 and steps and steps[0] == "1":
            steps.pop(0)
            k += 1
        if k < n - 1:
            if not steps:
                return m.group(1) + "?LEFT" + at
            if steps[0] != "0":
                return m.group(0)
            steps.pop(0)
        return m.group(1) + "." + labels[k] + "".join("." + s for s in steps)

    text = re.sub(rf"({path})((?:\.[01])+)(?![\w'-])", turn, text)
    # the whole of it, where a lemma wants the pair
    def whole(m):
        term = m.group(1)
        out = f"{term}.{labels[-1]}"
        for l in reversed(labels[:-1]):
            out = f"({term}.{l}, {out})"
        return out

    return re.sub(rf"((?:[A-Za-z_][\w'-]*\.)*{path})(?![\w'.-])", whole, text)


def renamed(text, to):
    """The text with the free names of `to` replaced: not those that a `λ`, a `(x : T) →` or a `let` binds."""
    out, i, bound = [], 0, [set()]
    word = re.compile(IDENT)
    while i < len(text):
        ch = text[i]
        if ch in "([{":
            pi = re.match(rf"\(((?:{IDENT} )+): [^()]*(?:\([^()]*\)[^()]*)*\)\s*→", text[i:])
            if pi:
                bound[-1] = bound[-1] | set(pi.group(1).split())
            bound.append(set(bound[-1]))
        elif ch in ")]}" and len(bound) > 1:
            bound.pop()
        elif ch == "λ":
            head = text[i : text.index(".", i)]
            names = set(re.findall(IDENT, re.sub(r":[^()]*", "", head)))
            bound[-1] = bound[-1] | names
        m = word.match(text, i) if not (i and re.match(r"[\w'.-]", text[i - 1])) else None
        if m:
            name = m.group(0)
            if re.search(r"\blet $", text[:i]):
                bound[-1] = bound[-1] | {name}
            field = re.match(r"\s*=(?!=)", text[m.end():]) and re.search(r"[{;]\s*$", text[:i])
            out.append(name if field or name in bound[-1] else to.get(name, name))
            i = m.end()
            continue
        out.append(ch)
        i += 1
    return "".join(out)


class Turn:
    def __init__(self, crate, info, clauses, function, folder):
        self.crate, self.info, self.clauses, self.function, self.folder = crate, info, clauses, function, folder
        self.own = clauses.get(function, ([], []))
        self.goals = {norm(a): b for a, b in info["needs"]}
        self.steps = {}
        self.callee = {}
        for place, parent, (old, new), callee, _ in info["places"]:
            if old:
                self.steps[norm(old)] = new
                if callee:
                    self.callee[new] = callee
        self.notes = []

    def paths(self, text):
        def step(m):
            name = m.group(1)
            if norm(name) not in self.steps and name.endswith("_law"):
                name = name[: -len("_law")]  # respell.py took a call's step for the lemma of that name
            return "." + self.steps.get(norm(name), m.group(1))

        text = re.sub(rf"(?<!args)(?<!ranges)(?<!requires)(?<!ensures)(?<!new)\.({IDENT})", step, text)
        text = re.sub(r"\.given\.0(?![\w'.-])", ".given", text)
        text = re.sub(r"\.in_default\.keys", ".in_default.in_default-own.keys", text)
        while True:  # a name for several clauses
            m = re.search(rf"\s*let ({IDENT}) = ((?:[A-Za-z_][\w'-]*\.)*(?:requires|ensures)) in(?![\w'-])", text)
            if not m:
                break
            text = text[: m.start()] + " " + re.sub(rf"(?<![\w'.-]){re.escape(m.group(1))}(?![\w'-])", m.group(2), text[m.end():])
        pre = self.info.get("pre")
        if pre and len(pre["fields"]) > 1:
            text = by_label(text, r"requires", pre["fields"])
        for new, callee in sorted(self.callee.items(), key=lambda p: -len(p[0])):
            labels = self.clauses.get(callee, ([], []))[1]
            if len(labels) > 1:
                text = by_label(text, re.escape(new) + r"\.ensures", labels)
        return text

    def goal_labels(self, new):
        if new == "returns" or new.startswith("returns-"):
            return self.own[1]
        m = re.match(r"(.+?)-requires", new)
        if m:
            for callee in self.callee.values():
                if callee.split("::")[-1] == m.group(1) or new.startswith(callee.split("::")[-1] + "-"):
                    return self.clauses.get(callee, ([], []))[0]
            for name, (req, _) in self.clauses.items():
                if name.split("::")[-1] == m.group(1) and len(req) > 1:
                    self.guess = name
                    return req
        return []

    def loop_of(self, old):
        for (was, new), names in self.info["loops"]:
            if norm(was) == norm(old):
                return self.info["loops"].index([[was, new], names])
        return None

    def invariant(self, kind, lines, old):
        at = self.loop_of(old)
        (was, new), names = self.info["loops"][at]
        changed = self.info["changed"][at]
        text = "\n".join(lines)
        head = re.search(rf"(?m)^((?:unfolding[^\n]*\n)?){kind}-{re.escape(old)}((?: [^\s=]+)*) =", text)
        params = head.group(2).split()
        body = text[head.end():]
        to = {}
        for k, p in enumerate(params):
            if k < len(names):
                to[p] = f"l.initial.{names[k]}" if changed[k] else f"l.{names[k]}"
            else:
                cur = [n for n, c in zip(names, changed) if c]
                to[p] = f"l.{cur[k - len(names)]}" if k - len(names) < len(cur) else p
        body = renamed(body, {a: b for a, b in to.items() if a != "_"})
        extra = head.group(1)
        return f"abbrev pub {kind}-{new} : goal.{kind}-{new}\n{extra}{kind}-{new} l ={body}"

    def file(self, path):
        text = read(path)
        if ".Tie as tie" not in text and "Tie as tie" not in text:
            return None
        uses, helpers, invariants, answers = [], [], [], []
        for block in blocks_of(text):
            code = [l for l in block if not l.startswith("--")]
            if not any(l.strip() for l in code):
                continue
            first = next(l for l in code if l.strip())
            if first.startswith("use ") or first.startswith("pub use "):
                for l in code:
                    if l.strip() and not re.search(r"\.(Statement\.\{statement\}|Tie as tie)", l):
                        uses.append(l)
                continue
            sig = re.match(rf"(?:abbrev |pub |unfoldable )*({IDENT})", first)
            name = sig.group(1)
            whole = "\n".join(block)
            m = re.search(rf"^(?:abbrev |pub )*{re.escape(name)} : tie\.([^\s]+)", "\n".join(code))
            if m and m.group(1).startswith(("invariant-", "decreases-")):
                kind, old = m.group(1).split("-", 1)
                invariants.append((block, self.invariant(kind, [l for l in code if l.strip()], old)))
            elif m and m.group(1).startswith("Need-"):
                old = norm(m.group(1)[len("Need-"):])
                old = old.removeprefix("overflow-") if old not in self.goals else old
                new = self.goals.get(old)
                if new is None:
                    self.notes.append(f"no goal {old}")
                    continue
                rest = "\n".join(l for l in code if l.strip())
                head = re.search(rf"(?m)^{re.escape(name)}((?: [^\s=]+)*) =", rest)
                if not head:
                    self.notes.append(f"goal {old}: no clause")
                    continue
                unfold = re.search(r"(?m)^unfolding[^\n]*$", rest[: head.start()])
                body = rest[head.end():]
                if body.strip() == "search rules" and not unfold:
                    continue
                body = self.paths(body)
                labels = self.goal_labels(new)
                if len(labels) > 1:
                    body = " " + as_record(body, labels)
                params = [p for p in head.group(1).split() if p != "κs"]
                comment = [l for l in block if l.startswith("--")]
                answers.append("\n".join(comment + [f"pub {new} : goal.{new}"] + ([unfold.group(0)] if unfold else []) + [f"{new} {' '.join(params)} ={body}"]))
            elif re.match(r"pub .*spec", first) and "statement" in first:
                continue
            else:
                helpers.append(whole)
        base = self.function.split("::")
        module = f"Rattle.{self.crate}.proofs." + ".".join(base[1:])
        top = [l for l in read(path).split("\n") if l.startswith("--")][:1] if read(path).startswith("--") else []
        top = [l for l in top if "edit fail" not in l]
        folder = os.path.dirname(path)
        os.remove(path)
        if invariants:
            body = "\n\n".join(i for _, i in invariants)
            with open(os.path.join(folder, "Invariants.antt"), "w", encoding="utf-8") as f:
                f.write("\n".join(needed(uses, body) + [f"use {module}.Given as goal", ""]) + "\n" + body + "\n")
        if answers:
            body = without_chains("\n\n".join(helpers + answers))
            with open(os.path.join(folder, "Answers.antt"), "w", encoding="utf-8") as f:
                f.write("\n".join(top + needed(uses, body) + [f"use {module}.Goals as goal", ""]) + "\n" + body + "\n")
        elif helpers:
            self.notes.append(f"{len(helpers)} helpers without an answer")
        if not os.listdir(folder):
            os.rmdir(folder)
        return self.notes


def without_chains(text):
    """What is known stands in `c` by its name now, so that no chain of `.before` leads there, and no name for a part of it is needed."""
    text = re.sub(r"(?<=[\w'])(\.before)+(?![\w'-])", "", text)
    out = []
    for block in re.split(r"(?m)(?=^pub )", text):
        while True:
            m = re.search(r"\s*let ([A-Za-z_][\w'₀-₉-]*) = c in\b", block)
            if not m:
                break
            block = block[: m.start()] + " " + block[m.end():].lstrip(" ")
            block = re.sub(rf"(?<![\w'.-]){re.escape(m.group(1))}(?![\w'-])", "c", block)
        out.append(block)
    return "".join(out)


def needed(uses, body):
    """The use lines with the names that the body has."""
    out = []
    words = set(re.findall(r"[^\s(){}\[\],;.]+", body))
    words |= {w.strip("`") for w in words}
    for line in uses:
        m = re.match(r"(.*\.\{)(.*)(\}.*)$", line)
        if not m:
            out.append(line)
            continue
        keep = []
        for n in m.group(2).split(","):
            n = n.strip()
            w = n.split(" as ")[-1].strip()
            bits = [b for b in w.split("◌") if b]
            if w in words or (w == "[]" and "[]" in body) or ("◌" in w and all(b in words for b in bits)):
                keep.append(n)
        if keep:
            out.append(m.group(1) + ", ".join(keep) + m.group(3))
    return out


def main(crates):
    clauses = clauses_of_sources()
    for crate in crates:
        with tempfile.TemporaryDirectory() as room:
            said = subprocess.run(["rt", "check", "--generated", room, "--old-names"], cwd=os.path.join("crates", crate), capture_output=True, text=True)
            names = os.path.join(room, "names.json")
            if not os.path.exists(names):
                print(crate, "has no names:", (said.stdout + said.stderr)[-2000:])
                continue
            with open(names, encoding="utf-8") as f:
                info = json.load(f)
        for key, value in info.items():
            m = re.match(rf"Rattle-{crate}-proofs\.(.*)\.Lts$", key)
            if not m:
                continue
            path = os.path.join("crates", crate, "proofs", *m.group(1).split("."), "Proof.antt")
            if os.path.exists(path):
                turn = Turn(crate, value, clauses, "::".join([crate] + m.group(1).split(".")), os.path.dirname(path))
                try:
                    notes = turn.file(path)
                except Exception as error:  # the file stays as it was
                    print(f"{path}: {type(error).__name__} {error}")
                    continue
                if notes is None:
                    print(f"{path}: not over Tie")
                for n in notes or []:
                    print(f"{path}: {n}")
        subprocess.run(["rt", "fmt"], cwd=os.path.join("crates", crate), stdout=subprocess.DEVNULL)


if __name__ == "__main__":
    sys.exit(main(sys.argv[1:]))

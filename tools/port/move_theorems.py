#!/usr/bin/env python3
"""Moves the theorems of some crates from specs/ to proofs/, so that a must-fail edit of a definition is refused for a goal and not for a theorem beside it.

usage: tools/port/move_theorems.py            at the top; again after a merge, if files still name a theorem where it was

Rattle takes an error in a file of specs/ for a text that it cannot read, and says so of an edit that makes a theorem there false. So the crates below, whose
edits change definitions that theorems rest on, keep only definitions in specs/: records, data, `abbrev`, `unfoldable` and what else is a value or a type, if it
is `pub` or a definition needs it. A theorem goes to the same path below proofs/, with what only theorems use: private definitions, and those of a `module _` block
that the block's theorems use by their bare names. Where rattle makes a module of that name from src/, the file's name gets `Laws` after it. Statements and proofs
stay as they are. A private definition that a theorem in proofs/ names becomes `pub`, and one that it unfolds `unfoldable`.

Imports of all crates follow, and so does the `file:` line of an edit whose text has moved.
"""
import os
import re
import subprocess
import sys

sys.dont_write_bytecode = True
from respell import files

CRATES = ("protocol", "promises", "any_network", "bytes_layout", "frame_places", "message_fields", "state_words", "step_numbers")
# A plain declaration is a definition if its value is of one of these, or of a type of src/.
VALUES = {"ℕ", "Bool", "List", "Type", "World", "Machine", "Event", "Fleet", "Move"}
# Modules that rattle makes in proofs/ of every crate with functions.
MADE = {"answers", "goals", "invariants", "passed", "proof", "reads", "tie", "types"}
WIDTH = 160

MARKS = r"(?:(?:unfoldable|abbrev|pub)\s+)*"
DECLARED = re.compile(r"(?P<marks>" + MARKS + r")(?P<kind>record |data )?(?P<name>[^\s:({]+)(?=[\s({:])")
USE = re.compile(r"(?P<head>[ \t]*(?:(?:unfoldable )?pub )?(?:ghost )?use )(?P<path>Rattle\.(?P<crate>\w+)\.(?:specs|proofs)\.(?P<module>[\w.-]+?))(?P<rest>\.\{[^}]*\}| as [^\s;]+);?")
WORD = re.compile(r"[^\s(){}\[\],;`\"]+")


def text_of(path):
    with open(path, encoding="utf-8") as f:
        return f.read()


def write(path, text):
    os.makedirs(os.path.dirname(path), exist_ok=True)
    with open(path, "w", encoding="utf-8") as f:
        f.write(text)


def depth(line):
    return len(line) - len(line.lstrip())


def bare(lines):
    """The lines' text without comments."""
    return "\n".join(re.sub(r"(^|\s)--(\s.*|-.*)?$", "", line) for line in lines)


# ---- reading a file


class Item:
    """A declaration: its lines, the comment above it, the `module _` blocks around it and the heading of its part of the file."""

    def __init__(self, name, marks, kind, lines, above, blocks, heading, gap):
        self.name, self.marks, self.kind, self.lines, self.above, self.blocks, self.heading, self.gap = name, marks, kind, lines, above, blocks, heading, gap
        self.moved = False
        self.makes = [name]
        if kind == "data":
            self.makes += [m[1] for line in lines[1:] for m in [re.match(r"\s+([^\s:({]+) :", line)] if m]

    def signature(self):
        out = [self.lines[0].strip()]
        for line in self.lines[1:]:
            if re.match(r"\s*(?:unfolding |" + re.escape(self.name) + r"(?:\s|$))", line) and depth(line) == depth(self.lines[0]):
                break
            out.append(line.strip())
        return " ".join(out)

    def names_opened(self):
        """The names on its `unfolding` lines."""
        return [w for line in self.lines for m in [re.match(r"\s*unfolding (.*)", line)] if m for w in m[1].split()]

    def bound(self):
        """Names that it binds itself: parameters, variables, local functions, fields."""
        text, out = bare(self.lines), set()
        for block in self.blocks:
            text += "\n" + " ".join(block.header)
        for m in re.finditer(r"[({]([^(){}:\n]+) : ", text):
            out |= set(m[1].split())
        for m in re.finditer(r"λ ((?:[^\s().]+ )*[^\s().]+)\.", text):
            out |= set(m[1].split())
        out |= set(re.findall(r"\blet ([^\s:=]+) [:=]", text))
        for line in bare(self.lines[1:]).split("\n"):
            m = re.match(r"\s+(?:pub )?([^\s:({=;]+)(?: \{[^}]*\})? :\s", line)
            if m and depth(line) > depth(self.lines[0]):
                out.add(m[1])
            m = re.match(r"\s*\S+ ([^=;]*?) =(?:\s|$)", line)
            if m and " : " not in m[1]:
                out |= set(WORD.findall(m[1]))
        return out

    def named(self):
        """Words of its text that can name another declaration."""
        text = re.sub(r"([{;]|^)\s*[^\s={};]+ =(?=\s)", r"\1 ", bare(self.lines), flags=re.M)
        for block in self.blocks:
            text += "\n" + bare(block.header)
        words = set(WORD.findall(text))
        words |= {w.split(".")[0] for w in words}
        return (words - self.bound() - {self.name}) | set(self.names_opened())


class Block:
    def __init__(self, header, above, heading, gap):
        self.header, self.above, self.heading, self.gap = header, above, heading, gap


class Module:
    """A file of specs/: its head (comments, imports, `mod` lines) and its declarations."""

    def __init__(self, crate, name, path):
        self.crate, self.name, self.path = crate, name, path
        self.top, self.uses, self.mods, self.items = [], [], [], []
        lines = text_of(path).rstrip("\n").split("\n")
        while lines and lines[0].startswith("--"):
            self.top.append(lines.pop(0))
        self.heading, self.gap, self.above = "", False, []
        self.read(lines, 0, ())
        assert not self.above, f"{path}: a comment at the end"

    def read(self, lines, indent, blocks):
        i = 0
        while i < len(lines):
            line = lines[i]
            said = line.strip()
            i += 1
            if not said:
                if self.above:
                    assert False, f"{self.path}: a comment about nothing: {self.above}"
                self.gap = True
                continue
            assert depth(line) == indent, f"{self.path}: {line}"
            if said.startswith("-- ----") and indent == 0:
                self.heading = line
                if i < len(lines) and not lines[i].strip():
                    i += 1
                    self.heading += "\n"
                continue
            if said.startswith("--"):
                self.above.append(line)
                continue
            if re.match(r"(?:unfoldable )?(?:pub )?use ", said):
                self.uses.append(line)
                continue
            if re.match(r"(?:pub )?mod ", said):
                self.mods.append(line)
                continue
            end = i
            if said.startswith("module _"):
                while not lines[end - 1].rstrip().endswith("where"):
                    end += 1
                block = Block(lines[i - 1 : end], self.above, self.heading, self.gap)
                i = end
                while end < len(lines) and (not lines[end].strip() or depth(lines[end]) > indent):
                    end += 1
                body = lines[i:end]
                while not body[-1].strip():
                    body.pop()
                    end -= 1
                self.above, self.gap = [], False
                self.read(body, min(depth(b) for b in body if b.strip()), blocks + (block,))
                i = end
                continue
            m = DECLARED.match(said)
            assert m, f"{self.path}: {line}"
            while end < len(lines):
                at = end
                while at < len(lines) and not lines[at].strip():
                    at += 1
                if at == len(lines) or depth(lines[at]) < indent:
                    break
                if depth(lines[at]) == indent:
                    said = lines[at].strip()
                    own = re.match(re.escape(m["name"]) + r"(?=[\s={(]|$)", said) and not re.match(re.escape(m["name"]) + r"(?: \{[^}]*\})? :", said)
                    if at > end or not (said[0] in ")}]" or said.startswith("unfolding ") or own):
                        break
                end = at + 1
            self.items.append(Item(m["name"], m["marks"].split(), (m["kind"] or "").strip(), lines[i - 1 : end], self.above, blocks, self.heading, self.gap))
            self.above, self.gap, i = [], False, end

    def imports(self):
        """What each imported name means, (module's path, name), and each module's name."""
        names, modules = {}, {}
        for line in self.uses:
            m = USE.match(line)
            if m and m["rest"].startswith(" as "):
                modules[m["rest"][4:]] = m["path"]
            elif m:
                for one in m["rest"][2:-1].split(","):
                    was, _, now = one.strip().partition(" as ")
                    names[(now or was).strip()] = (m["path"], was.strip())
        return names, modules


def modules_of(crate):
    out = {}
    for folder, _, names in os.walk(f"crates/{crate}/specs"):
        for name in sorted(names):
            if name.endswith(".antt"):
                path = os.path.join(folder, name)
                module = path[len(f"crates/{crate}/specs/") : -len(".antt")].replace("/", ".")
                out[f"Rattle.{crate}.specs.{module}"] = Module(crate, module, path)
    return out


# ---- what moves


def is_definition(item, of_source):
    if item.kind or "abbrev" in item.marks or "unfoldable" in item.marks:
        return True
    said = item.signature().split(" : ", 1)[1]
    level = last = 0
    for m in re.finditer(r"[({]|[)}]| → ", said):
        if m[0] == " → ":
            last = m.end() if level == 0 else last
        else:
            level += 1 if m[0] in "({" else -1
    result = said[last:]
    return not re.search(r"[≡<≤⊎⊥¬]", result) and all(part.split()[0] in VALUES | of_source for part in result.split(" × "))


class Plan:
    """Which declarations move, and who names whom."""

    def __init__(self):
        self.modules = {}
        for crate in CRATES:
            self.modules.update(modules_of(crate))
        self.own = {path: {name: item for item in module.items for name in item.makes} for path, module in self.modules.items()}
        self.home = {id(item): path for path, module in self.modules.items() for item in module.items}
        self.items = [item for module in self.modules.values() for item in module.items]
        self.uses = {}
        definitions = set()
        for path, module in self.modules.items():
            names, spaces = module.imports()
            of_source = {name for name, (at, _) in names.items() if ".specs.declared." in at}
            for item in module.items:
                found = []
                for word in item.named():
                    space, _, rest = word.partition(".")
                    if word in self.own[path]:
                        found.append(self.own[path][word])
                    elif names.get(word, ("",))[0] in self.own:
                        at, was = names[word]
                        found.append(self.own[at].get(was))
                    elif rest and spaces.get(space) in self.own:
                        found.append(self.own[spaces[space]].get(rest.split(".")[0]))
                self.uses[id(item)] = [it for it in found if it and it is not item]
                if is_definition(item, of_source):
                    definitions.add(id(item))
        roots = {id(it) for it in self.items if id(it) in definitions and "pub" in it.marks}
        cited = self.cited()
        while True:
            kept = self.closed(roots | cited)
            torn = {id(k) for it in self.items if id(it) not in kept for k in self.uses[id(it)] if id(k) in kept and self.shared(k, it)}
            need = {root for root in roots if torn & self.closed({root})}
            if not need:
                break
            roots -= need
        assert not torn, "named in src/, and by a theorem of the same block: " + ", ".join(it.name for it in self.items if id(it) in torn)
        for it in self.items:
            it.moved = id(it) not in kept
        self.left = [(self.home[id(it)], it.name) for it in self.items if not it.moved and id(it) not in definitions]

    def shared(self, definition, item):
        """Whether both stand in one block with parameters, so that the item can name the definition without them."""
        return bool(definition.blocks) and self.home[id(definition)] == self.home[id(item)] and item.blocks[: len(definition.blocks)] == definition.blocks

    def closed(self, found):
        found, todo = set(found), [it for it in self.items if id(it) in found]
        while todo:
            for it in self.uses[id(todo.pop())]:
                if id(it) not in found:
                    found.add(id(it))
                    todo.append(it)
        return found

    def cited(self):
        """What a file of src/ imports."""
        out = set()
        for path in files((".rt",)):
            for m in USE.finditer(text_of(path)):
                if m["path"] in self.own and m["rest"].startswith(".{"):
                    for one in m["rest"][2:-1].split(","):
                        item = self.own[m["path"]].get(one.strip().split(" as ")[0])
                        out |= {id(item)} if item else set()
        return out

    def publish(self):
        """Marks what stays and is named from proofs/."""
        for it in self.items:
            if it.moved:
                opened = set(it.names_opened())
                for k in self.uses[id(it)]:
                    if not k.moved:
                        path = self.home[id(it)]
                        says = {n for n in k.makes} if self.home[id(k)] == path else {n for n, (_, was) in self.modules[path].imports()[0].items() if was == k.name}
                        self.mark(k, bool(opened & says))

    def mark(self, it, opens):
        marks, new = it.marks, list(it.marks)
        if "pub" not in new:
            new.append("pub")
        if opens and not it.kind and "abbrev" not in new and "unfoldable" not in new:
            new.insert(0, "unfoldable")
        if new == marks:
            return
        it.marks = new
        start = depth(it.lines[0])
        said = it.lines[0].strip()
        said = said[len(" ".join(marks)) :].strip() if marks else said
        it.lines[0] = " " * start + " ".join(new) + " " + said
        for k in self.uses[id(it)]:
            if not k.moved and "pub" not in k.marks and "abbrev" not in k.marks:
                self.mark(k, False)


# ---- writing the two halves


def taken(crate):
    """Names, in small letters, of the modules that rattle makes from src/."""
    out = {name[: -len(".rt")] for name in os.listdir(f"crates/{crate}/src") if name.endswith(".rt")}
    out |= set(re.findall(r"(?m)^\s*(?:pub )?(?:fn|struct|enum|trait|const|static|mod) (\w+)", text_of(f"crates/{crate}/src/lib.rt")))
    return {name.lower() for name in out} | MADE


def moved_name(crate, module):
    first, _, rest = module.partition(".")
    if first.lower() in taken(crate):
        first += "Laws"
    return first + ("." + rest if rest else "")


def listed(head, path, names):
    """Import lines for these names, none wider than WIDTH if it has more than one."""
    out, row = [], []
    for name in names:
        if row and len(f"{head}{path}.{{{', '.join(row + [name])}}}") > WIDTH:
            out.append(f"{head}{path}.{{{', '.join(row)}}}")
            row = []
        row.append(name)
    return out + [f"{head}{path}.{{{', '.join(row)}}}"] if row else out


def used_in(text, name):
    """Whether an imported name stands in the text."""
    edge = r"[\s(){}\[\],;`\"]"
    if "◌" in name:
        parts = [p for p in name.split("◌") if p]
        return name in text or all(re.search(rf"(?:^|{edge}|◌){re.escape(p)}(?:$|{edge}|◌)", text, re.M) for p in parts)
    return bool(re.search(rf"(?:^|{edge}){re.escape(name)}(?:$|{edge}|\.)", text, re.M))


def text_in(items):
    """The text of declarations and of the blocks around them, without the names of fields and of local functions where these are declared."""
    text = bare([line for it in items for line in it.lines + [h for b in it.blocks for h in b.header]])
    return re.sub(r"(?m)(?:([{;])|^)\s*(?:pub )?[^\s:(){};=]+ (?:\{[^}]*\} )?[:=](?=\s)", r"\1 ", text)


def body_of(items):
    """The lines of these declarations, with the blocks and headings around them."""
    out, open_blocks, heading = [], (), ""
    for item in items:
        same = 0
        while same < min(len(open_blocks), len(item.blocks)) and open_blocks[same] is item.blocks[same]:
            same += 1
        new = item.blocks[same:]
        if same < len(open_blocks) or not open_blocks or item.gap or new:
            out += [""] if out and not (same == len(open_blocks) and open_blocks and out[-1].rstrip().endswith("where")) else []
        if item.heading != heading:
            heading = item.heading
            if heading:
                out += heading.split("\n") if heading.endswith("\n") else [heading]
        for block in new:
            out += block.above + block.header
        out += item.above + item.lines
        open_blocks = item.blocks
    return out


def filtered(uses, text):
    out = []
    for line in uses:
        m = re.match(r"(.*)\.\{([^}]*)\}$", line)
        if m:
            names = [n.strip() for n in m[2].split(",")]
            left = [n for n in names if used_in(text, n.split(" as ")[-1].strip().split(".")[-1])]
            out += [f"{m[1]}.{{{', '.join(left)}}}"] if left else []
        else:
            name = line.split(" as ")[1].strip() if " as " in line else line.split(".")[-1].strip()
            out += [line] if re.search(rf"(?<![^\s(){{}}\[\],;]){re.escape(name)}\.", text) else []
    return out


def head_with(uses, more, crate):
    """The imports, and these after the last of the crate's own."""
    at = max((i + 1 for i, line in enumerate(uses) if line.split("use ", 1)[1].startswith(f"Rattle.{crate}.")), default=len(uses))
    return uses[:at] + more + uses[at:]


def split(plan):
    """Writes both halves of each module that has theorems, and the node files above them."""
    for crate in CRATES:
        modules = {m.name: m for m in plan.modules.values() if m.crate == crate}
        goes = {name for name, m in modules.items() if any(it.moved for it in m.items)}
        if not goes:
            continue
        for name in list(goes):
            while "." in name:
                name = name.rpartition(".")[0]
                goes.add(name)
        goes.add("Lib")
        stays = {name for name, m in modules.items() if any(not it.moved for it in m.items) or m.items == [] and m.mods == []}
        for name in sorted(stays):
            while "." in name:
                name = name.rpartition(".")[0]
                stays.add(name)
        stays.add("Lib")

        def children(name, half, to):
            under = "" if name == "Lib" else name + "."
            return [line.rpartition(" ")[0] + " " + to(under + line.split()[-1]).rpartition(".")[2] for line in modules[name].mods if under + line.split()[-1] in half]

        for name, m in sorted(modules.items()):
            kept, gone = [it for it in m.items if not it.moved], [it for it in m.items if it.moved]
            if name in goes:
                text = text_in(gone)
                mine = sorted({n for it in gone for k in plan.uses[id(it)] if not k.moved and plan.home[id(k)] == plan.home[id(it)] for n in k.makes if used_in(text, n)},
                              key=[n for it in m.items for n in it.makes].index)
                uses = head_with(filtered(m.uses, text), listed("use ", f"Rattle.{crate}.specs.{name}", mine), crate)
                to = name if name == "Lib" else moved_name(crate, name)
                path = f"crates/{crate}/proofs/{to.replace('.', '/')}.antt"
                append(path, m.top if name != "Lib" else [], children(name, goes, lambda n: moved_name(crate, n)), uses, body_of(gone))
            if name not in stays:
                os.remove(m.path)
                continue
            if gone or name in goes:
                text = text_in(kept)
                head = m.top + children(name, stays, lambda n: n) + filtered(m.uses, text)
                body = body_of(kept)
                write(m.path, "\n".join(head + ([""] if head and body else []) + body) + "\n")
        for folder, _, _ in sorted(os.walk(f"crates/{crate}/specs"), reverse=True):
            if not os.listdir(folder):
                os.rmdir(folder)


def append(path, top, mods, uses, body):
    if os.path.exists(path):
        lines = text_of(path).rstrip("\n").split("\n")
        last = max((i for i, line in enumerate(lines) if re.match(r"(?:pub )?(?:use|mod) ", line)), default=-1)
        have = {line.split()[-1] for line in lines if re.match(r"(?:pub )?mod ", line)}
        mods = [line for line in mods if line.split()[-1] not in have]
        said = {(m["path"], n.strip()) for line in lines for m in [USE.match(line)] if m for n in m["rest"][2:-1].split(",")}
        more = []
        for line in uses:
            m = re.match(r"(\S.*use )(\S+)\.\{([^}]*)\}$", line)
            if m:
                more += listed(m[1], m[2], [n.strip() for n in m[3].split(",") if (m[2], n.strip()) not in said])
            elif line not in lines:
                more.append(line)
        lines[last + 1 : last + 1] = mods + more
        write(path, "\n".join(lines + ([""] + body if body else [])) + "\n")
        return
    head = top + mods + uses
    write(path, "\n".join(head + ([""] if head and body else []) + body) + "\n")


# ---- who names them


def declared():
    """For each module of specs/, the names that are declared there, and those that are in proofs/ with the module that they are in."""
    there, gone = {}, {}
    for crate in CRATES:
        for half, into in (("specs", there), ("proofs", gone)):
            for folder, _, names in os.walk(f"crates/{crate}/{half}"):
                for name in names:
                    if name.endswith(".antt") and name not in ("Proof.antt", "Answers.antt", "Invariants.antt"):
                        path = os.path.join(folder, name)
                        module = path[len(f"crates/{crate}/{half}/") : -len(".antt")].replace("/", ".")
                        found = set()
                        for line in text_of(path).split("\n"):
                            m = re.match(r"\s*" + MARKS + r"(?:record |data )?([^\s:({]+)(?: \{[^}]*\})?(?: [({].*)? :(?:\s|$)", line)
                            m = m or re.match(r"\s*(?:pub )?(?:record|data) ([^\s:({]+)", line)
                            if m:
                                found.add(m[1])
                        into[f"Rattle.{crate}.{half}.{module}"] = found
    return there, gone


def follow(there, gone):
    """Rewrites the imports of all files. A module whose definitions and theorems are named through it is imported twice, the second time as NAME_laws."""
    n = 0
    for path in files((".antt", ".rt")):
        text, both = text_of(path), []

        def target(old):
            m = re.match(r"Rattle\.(\w+)\.specs\.(.+)", old)
            if not m or m[1] not in CRATES or m[2].startswith(("declared.", "contracts.")):
                return None
            to = f"Rattle.{m[1]}.proofs.{moved_name(m[1], m[2])}"
            return to if to in gone else None

        def line(m):
            to = target(m["path"])
            if not to:
                return m[0]
            end = ";" if m[0].endswith(";") else ""
            if m["rest"].startswith(" as "):
                name = re.escape(m["rest"][4:])
                said = set(re.findall(rf"(?<![^\s(){{}}\[\],;]){name}\.([^\s(){{}}\[\],;.]+)", text))
                theirs = {w for w in said if w in gone[to] and w not in there.get(m["path"], ())}
                if theirs and theirs != said:
                    both.append((name, theirs))
                    return f"{m[0]}\n{m['head']}{to}{m['rest']}_laws{end}"
                return m["head"] + to + m["rest"] + end if theirs else m[0]
            names = [one.strip() for one in m["rest"][2:-1].split(",")]
            theirs = [one for one in names if one.split(" as ")[0] in gone[to] and one.split(" as ")[0] not in there.get(m["path"], ())]
            if not theirs:
                return m[0]
            left = [one for one in names if one not in theirs]
            rows = [f"{m['head']}{m['path']}.{{{', '.join(left)}}}{end}"] if left else []
            return "\n".join(rows + [f"{m['head']}{to}.{{{', '.join(theirs)}}}{end}"])

        new = USE.sub(line, text)
        for name, theirs in both:
            new = re.sub(rf"(?<![^\s(){{}}\[\],;]){name}\.(?=(?:{'|'.join(map(re.escape, theirs))})(?![^\s(){{}}\[\],;.]))", f"{name}_laws.", new)
        if new != text:
            n += 1
            write(path, new)
    return n


def follow_edits():
    """An edit's `file:` line, where its text has moved."""
    n = 0
    for path in files((".edit",)):
        crate = path.split("/")[1]
        if crate not in CRATES:
            continue
        out, wanted, said, olds = [], None, None, []
        for line in text_of(path).split("\n"):
            if line.startswith("file:"):
                wanted = line[len("file:") :].strip()
                continue
            if line.startswith("old:") and wanted:
                now = wanted
                old = line[len("old:") :].removeprefix(" ")
                if wanted.startswith("specs/"):
                    module = wanted[len("specs/") : -len(".antt")].replace("/", ".")
                    other = f"proofs/{moved_name(crate, module).replace('.', '/')}.antt"
                    here = text_of(f"crates/{crate}/{wanted}").count(old) if os.path.exists(f"crates/{crate}/{wanted}") else 0
                    if here == 0 and os.path.exists(f"crates/{crate}/{other}") and text_of(f"crates/{crate}/{other}").count(old) == 1:
                        now = other
                if now != said:
                    out.append(f"file: {now}")
                    said = now
            out.append(line)
        text = "\n".join(out)
        if text != text_of(path):
            n += 1
            write(path, text)
    return n


def main():
    plan = Plan()
    for path, name in plan.left:
        print(f"{path}.{name} stays: a definition needs it")
    moved = sum(it.moved for it in plan.items)
    plan.publish()
    split(plan)
    changed = follow(*declared())
    edits = follow_edits()
    print(f"{moved} declarations moved, imports in {changed} files, {edits} edits")
    for crate in sorted(os.listdir("crates")):
        if os.path.isdir(os.path.join("crates", crate, "src")):
            subprocess.run(["rt", "fmt"], cwd=os.path.join("crates", crate), stdout=subprocess.DEVNULL, check=True)


if __name__ == "__main__":
    sys.exit(main())

"""Which definitions and functions quote which sentence of the papers: the generated columns of docs/TRACE.md.

The first column of its tables has the sentences, in each row one or a part of one. Comments of the crates quote them: a quotation has the paper's words in
their order, and leaves words out only at ".." or a punctuation mark; one that no row has is a fault, in must-fail edits too. A comment before a
definition, a field of a record, a function or a type is about that one, before a constant about all constants down to the next comment; a heading
`-- ----` is about every definition down to the next heading. One word in quotation marks is an answer ("no").
"""
import glob
import re
from collections import defaultdict

# what quotes neither 01 nor 02: the customer's demand 3
ELSEWHERE = {"every copy shown is the value of the last write to that notice completed before it, or zero"}
DEFINITION = re.compile(r"(?:(?:abbrev|unfoldable) (?:pub )?|(?:pub )?(?:record|data) )([^\s:({]+)")
FIELD = re.compile(r"  (?:pub )?([^\s:({]+) :")
CODE = re.compile(r'(?:pub )?(?:extern "C" )?(?:fn|struct|enum|const|type|trait) (\w+)')
IMPL = re.compile(r"(?:impl|pub trait|trait)\b(?:<[^{]*?>)? (?:.* for )?(\w+)")
METHOD = re.compile(r"    (?:pub )?(?:const )?fn (\w+)")


def words(text):
    return " ".join(re.sub(r'["*()]', "", text).split())


def cells(row):
    return [cell.strip() for cell in row.split("|")[1:-1]]


def quotations(comment):
    """Yields the quotations in a comment, sentence by sentence. A quotation within another is part of it."""
    depth = start = 0
    for mark in re.finditer('"', comment + '"'):
        opens = mark.start() == 0 or comment[mark.start() - 1] in " ("
        start = start if depth else mark.end()
        depth += 1 if opens else -1
        if depth == 0:
            yield from re.split(r"(?<=[\w)]\.) (?=[A-Z])", comment[start : mark.start()])


def comments(path):
    """Yields each line of a file that is no comment, with the heading above it, the comment before it and the record that it is in."""
    heading, comment, record = "", [], ""
    with open(path, encoding="utf-8") as f:
        for line in f.read().split("\n"):
            if line.startswith("-- ----"):
                heading = line
            elif re.match(r"\s*(--|//)", line):
                comment.append(line.strip()[2:].strip())
            elif not line.strip().startswith("#"):
                record = re.findall(r"^(?:pub )?record (\S+)", line) if line[:1].strip() else record
                yield heading, " ".join(comment), line, "".join(record)
                comment = []


def in_specs(path):
    """Yields the comments of a file of specs or proofs, each with the definition that it is about, or ""."""
    _, crate, _, file = path.removesuffix(".antt").split("/", 3)
    file = file if crate == "protocol" else f"{crate}/{file}"
    for heading, comment, line, record in comments(path):
        definition, field = DEFINITION.match(line), record and FIELD.match(line)
        name = definition[1] if definition else f"{record}.{field[1]}" if field else ""
        yield comment, name and f"{file}.{name}"
        if definition:
            yield heading, f"{file}.{name}"


def in_code(path):
    """Yields the comments of a file of code, each with the function or type that it is about, or ""."""
    _, crate, _, file = path.removesuffix(".rt").split("/", 3)
    modules = [crate] + [part for part in file.split("/") if part not in ("lib", "main")]
    above = owner = ""
    for _, comment, line, _ in comments(path):
        item, method = CODE.match(line), owner and METHOD.match(line)
        if line[:1].strip():
            owner = IMPL.match(line)[1] if IMPL.match(line) else "" if line != "}" else owner
        if line:
            above = comment or above if line.startswith("pub const") else comment
            name = [item[1]] if item else [owner, method[1]] if method and owner[0].isupper() else []
            yield above, "::".join(modules + name) if name else ""


def in_edit(path):
    """Yields the comment of a must-fail edit."""
    with open(path, encoding="utf-8") as f:
        yield " ".join(re.findall(r"^# (.*)", f.read(), re.M)), ""


def sentences(text):
    """Returns each sentence in the tables of a text, with the start, the end and the line number of each part."""
    found = []
    for number, line in enumerate(text.split("\n")):
        if re.match(r'\| (\.\. |[^|]*")', line):
            part = cells(line)[0]
            sentence, parts = found.pop() if part.startswith("..") else ("", [])
            start, sentence = len(sentence), f"{sentence} {words(part.removeprefix('..'))}"
            found.append((sentence, parts + [(start, len(sentence), number)]))
    return found


def quoted(found, quotation):
    """Returns the line numbers of all parts that have words of the quotation, in each sentence where it stands."""
    clauses = [words(clause) for clause in re.split(r"\.\.|[,;:.?](?= |$)", quotation)]
    pattern = ".*?".join(rf"(?<!\w)({re.escape(clause)})(?!\w)" for clause in clauses if clause)
    lines = set()
    for sentence, parts in found:
        for match in re.finditer(pattern, sentence, re.I):
            spans = [match.span(group) for group in range(1, match.re.groups + 1)]
            lines |= {number for first, last, number in parts for start, end in spans if start < last and first < end}
    return lines


READERS = [
    ("definition", in_specs, "specs/**/*.antt"),
    ("code", in_code, "src/**/*.rt"),
    ("definition", in_specs, "proofs/**/*.antt"),  # what a theorem there defines for itself
    ("", in_edit, "must-fail/*.edit"),
]


def all_quotations(crates):
    """Yields the quotations in the crates, each with its column, its file and the name that quotes it, or ""."""
    for crate in crates:
        for column, reader, pattern in READERS:
            for path in sorted(glob.glob(f"crates/{crate}/{pattern}", recursive=True)):
                for comment, name in reader(path):
                    for quotation in quotations(comment):
                        yield column, path, name, quotation


def quoting(text, crates):
    """Returns the names that quote each line of a text, by column, and the quotations that are in no sentence of it."""
    found = sentences(text)
    no_sentence = ELSEWHERE | {heading.strip('"') for heading in re.findall(r"^#+ (?:A\d+, )?(.*)", text, re.M)}
    names, faults = defaultdict(list), []
    for column, path, name, quotation in all_quotations(crates):
        if len(re.findall(r"\w+", quotation)) < 2 or quotation in no_sentence:
            continue
        lines = quoted(found, quotation)
        if not lines:
            faults.append(f'{path}: "{quotation}" is in no row of docs/TRACE.md')
        for line in lines:
            if name and name not in names[column, line]:
                names[column, line].append(name)
    return names, faults


def trace(text, crates):
    """Returns the text with its generated columns made anew, and the quotations that are in no row. What quotes a sentence goes from the column "also"."""
    names, faults = quoting(text, crates)
    lines, columns, head = text.split("\n"), [], []
    for number, line in enumerate(lines):
        if line.startswith("<!-- "):
            columns, head = re.findall(r"generated: (.*) -->", line), []
        elif line.startswith("| 0") and "definition" in line and not columns:
            faults.append(f"docs/TRACE.md:{number + 1}: a table without the mark of its generated columns")
        elif columns and line.startswith("| ") and not head:
            head = cells(line)
        elif columns and line.startswith("| "):
            row = dict(zip(head, cells(line), strict=True))
            for column in columns[0].split(", "):
                generated = [f"`{name}`" for name in names[column, number]]
                row[column] = ", ".join(generated)
                row["also"] = ", ".join(part for part in row["also"].split(", ") if part not in generated)
            lines[number] = "|" + "".join(f" {cell} |" if cell else " |" for cell in row.values())
    return "\n".join(lines), faults

#!/usr/bin/env python3
"""Spells the names of definitions and lemmas as today's Rattle does: words in snake case, types and modules in upper camel case.

usage: python3 tools/respell.py [--list]

Run once, at the top, behind the kit's port.py, which spells only some of the names so. It collects what the .antt files below crates/
declare (definitions, lemmas, fields, constructors), turns these words there, in the clauses and `ghost` items of the .rt files, in the
texts of the must-fail edits, in code spans of comments and in code spans of pages. Functions of src/, exported names, strings, inputs
and outputs keep their names. It stops where two names would fall together, in all or in one file; OTHER has the names that are then
given another word. --list prints old and new names and writes nothing.
"""
import collections
import os
import re
import sys

WORD = re.compile(r'[^\s(){}.;,@"«»]+')
DECL = re.compile(r'^( *)((?:(?:abbrev|pub|unfoldable|opaque|instance|private) +)*)([^\s(){}.;,@"«»:]+)((?:\s*\{[^{}\n]*\}|\s*\([^()\n]*\))*) :(?=\s)')
HEAD = re.compile(r'^ *(?:(?:abbrev|pub|unfoldable) +)*(?:record|data|ruleset) +([^\s(){}.;,@"«»:]+)')
MADE = re.compile(r": (?:\{[^}]*\} → )?(?:tie\.|statement\b)")
KEEP = set("""mod use open where let do module record data ruleset syntax""".split())
# Names that would fall together with another: what each is called.
OTHER = {
    # The calls of a list keep the words of the calls; what each makes of a message is named for what it returns.
    "setBody": "body_set",
    "setHeader": "header_set",
    "addHeader": "header_added",
    "addHeaderObj": "header_obj_added",
    "addContentHeader": "content_header_added",
    # `lf` is the byte.
    "LF": "lf_text",
    "LFLF": "lf_lf_text",
    "CRLF": "crlf_text",
    "CRLFCRLF": "crlf_crlf_text",
    # `in_text` is a field of the answer.
    "inText": "stands_in_text",
}
SKIP = set()
CRATES = set(os.listdir("crates"))
CALL_WORDS = {"set_body", "set_header", "add_header", "add_header_obj", "add_content_header"}


def files(root, *ends):
    for folder, dirs, names in os.walk(root):
        dirs[:] = sorted(d for d in dirs if d not in ("out", "target", ".git"))
        for f in sorted(names):
            if f.endswith(ends):
                yield os.path.join(folder, f)


def read(path):
    with open(path, encoding="utf-8") as f:
        return f.read()


def blanked(text):
    """The text with comments and strings blanked."""
    def blank(m):
        return re.sub(r"[^\n]", " ", m.group(0))
    return re.sub(r'"(?:[^"\\\n]|\\.)*"|(?<![^\s(){}.;,@"«»])--[^\n]*|\{-.*?-\}', blank, text, flags=re.S)


def declared():
    """Each name that an .antt file declares, with whether it is a type, and the files."""
    found = collections.defaultdict(set)
    types = set()
    for path in files("crates", ".antt"):
        text = blanked(read(path))
        lines = text.split("\n")
        for n, line in enumerate(lines):
            m = HEAD.match(line)
            if m:
                found[m.group(1)].add(path)
                types.add(m.group(1))
                continue
            m = DECL.match(line)
            if not m or m.group(3) in KEEP:
                continue
            name = m.group(3)
            rest = line[m.end() - 2:]
            k = n + 1
            while k < len(lines) and lines[k].startswith("    ") and not lines[k].strip().startswith(("--",)) and k < n + 12:
                rest += " " + lines[k].strip()
                k += 1
            if path.endswith("Proof.antt") and MADE.search(rest):
                continue
            # a binder within a term: only at the margin, or in a record, data or where block
            if len(m.group(1)) > 8:
                continue
            found[name].add(path)
            if re.search(r"→ Type \d\s*(?:where)?$|^ *: *Type \d\s*(?:where)?$|Type 0$", rest.rstrip()) and name[:1].isupper():
                types.add(name)
    return found, types


def snake(name, is_type):
    if is_type or name[:1].isupper() or name in SKIP:
        return name
    if "◌" in name:
        parts = re.split(r"(◌)", name)
        return "".join(p if p == "◌" else lower(p) for p in parts)
    return lower(name)


def lower(name):
    words = re.sub(r"(?<=[a-z0-9'])[A-Z]", lambda m: "_" + m.group(0).lower(), name)
    words = re.sub(r"(?<=\w)-(?=\w)", "_", words)
    return words


def named(found, types):
    """Old name to new. Where a lemma would get its function's name, the lemma gets _lem."""
    table = {name: OTHER.get(name) or snake(name, name in types) for name in found}
    together = collections.defaultdict(list)
    for name in found:
        together[table[name]].append(name)
    for new, olds in together.items():
        if len(olds) == 1:
            continue
        first = [o for o in olds if re.search(r"[a-z][A-Z]", o)] or ([new] if new in olds and any("-" in o for o in olds) else [])
        if new in CALL_WORDS:
            first = [o for o in olds if "-" in o or o == new]
        if len(first) != 1 or len(olds) != 2:
            print("together:", new, olds)
            raise SystemExit(2)
        for o in olds:
            if o != first[0]:
                table[o] = new + "_lem"
    seen = collections.Counter(table.values())
    for new, n in seen.items():
        if n > 1:
            print("together:", new, [o for o in table if table[o] == new])
            raise SystemExit(2)
    return {o: n for o, n in table.items() if o != n}


# Words that are Rust's in a file of src/: outside clauses and ghost items nothing turns.
CLAUSE = re.compile(r"\b(?:requires|ensures)\*?(?:\s+\w+)?\s*\{|\bghost\b[^;{]*[;{]")


def ghost_spans(text):
    """The spans of an .rt text that are antt: clauses, ghost members, `ghost use` items."""
    spans, at = [], 0
    code = re.sub(r'//[^\n]*|b?"(?:[^"\\\n]|\\.)*"', lambda m: " " * len(m.group(0)), text)
    while True:
        m = CLAUSE.search(code, at)
        if not m:
            return spans
        if code[m.end() - 1] == ";":
            spans.append((m.start(), m.end()))
            at = m.end()
            continue
        deep, k = 1, m.end()
        while deep:
            deep += {"{": 1, "}": -1}.get(code[k], 0)
            k += 1
        spans.append((m.end() - 1, k))
        at = k


def of_file(text, table):
    """The table for one file: a name that it brings from a library keeps the library's spelling."""
    theirs = set()
    for path, names in re.findall(r"\buse ([^\s;{]+)\{([^}]*)\}", text):
        steps = path.split(".")
        if steps[0] != "Rattle" or steps[1] not in CRATES:
            theirs |= {it.split(" as ")[0].strip() for it in names.split(",")}
    return {o: n for o, n in table.items() if o not in theirs} if theirs & table.keys() else table


def turned(text, table, sub=WORD):
    return sub.sub(lambda m: table.get(m.group(0), m.group(0)), text)


def spans_turned(text, table):
    """Code spans of a comment or a page."""
    table = {o: n for o, n in table.items() if not o.isupper()}
    return re.sub(r"`[^`\n]+`", lambda m: turned(m.group(0), table, re.compile(r'[^\s(){}.;,@"«»`:/]+')), text)


PIECE = re.compile(r'"(?:[^"\\\n]|\\.)*"|(?<![^\s(){}.;,@"«»])--[^\n]*|\{-.*?-\}', re.S)


def antt_turned(text, table):
    out, at = [], 0
    for m in PIECE.finditer(text):
        out.append(turned(text[at:m.start()], table))
        out.append(m.group(0) if m.group(0)[0] == '"' else spans_turned(m.group(0), table))
        at = m.end()
    return "".join(out) + turned(text[at:], table)


def rt_turned(text, table):
    out, at = [], 0
    def plain(piece):
        return re.sub(r"//[^\n]*", lambda m: spans_turned(m.group(0), table), piece)
    for a, b in ghost_spans(text):
        out += [plain(text[at:a]), antt_turned(text[a:b], table)]
        at = b
    return "".join(out) + plain(text[at:])


def edit_turned(text, table):
    out, rt = [], False
    for line in text.split("\n"):
        m = re.match(r"(file|old|new|refuses): ?(.*)$", line)
        if m and m.group(1) == "file":
            rt = m.group(2).endswith(".rt")
        elif m and m.group(1) == "refuses":
            line = re.sub(r"( at )(\S+)", lambda k: k.group(1) + table.get(k.group(2), k.group(2)), line)
        elif m:
            head = line[: m.start(2)]
            line = head + (rt_line(m.group(2), table) if rt else antt_turned(m.group(2), table))
        elif line.startswith("#"):
            line = spans_turned(line, table)
        out.append(line)
    return "\n".join(out)


def rt_line(text, table):
    """A line of an edit of src/: antt only where it holds a clause."""
    return antt_turned(text, table) if re.search(r"\b(requires|ensures|ghost)\b", text) else text


def meets(table):
    """Where a new name would meet a word of the same file. (In src/ and in the proofs of functions it may meet the function's own
    name, which no clause can name.)"""
    bad = []
    for path in files("crates", ".antt", ".rt"):
        text = read(path)
        code = blanked(text) if path.endswith(".antt") else re.sub(r'//[^\n]*|b?"(?:[^"\\\n]|\\.)*"', " ", text)
        if path.endswith(".rt"):
            ghost = " ".join(text[a:b] for a, b in ghost_spans(text))
            words = set(WORD.findall(ghost))
            all_words = set(re.findall(r"\w+", code)) | words
        else:
            words = all_words = set(WORD.findall(code))
        for old in words & of_file(text, table).keys():
            if table[old] in all_words and table[old] not in table:
                bad.append((path, old, table[old]))
    return bad


def main(argv):
    found, types = declared()
    table = named(found, types)
    if "--list" in argv:
        for old in sorted(table):
            print(old, table[old], sep="\t")
        for row in meets(table):
            print("meets:", *row)
        return 0
    bad = [row for row in meets(table) if "/src/" not in row[0] and not row[0].endswith("Proof.antt")]
    if bad:
        for row in bad:
            print("meets:", *row)
        return 2
    whole = table
    for path in files("crates", ".antt", ".rt", ".edit"):
        text = read(path)
        table = of_file(text, whole)
        new = {"antt": antt_turned, "rt": rt_turned, "edit": edit_turned}[path.rsplit(".", 1)[1]](text, table)
        if new != text:
            with open(path, "w", encoding="utf-8") as f:
                f.write(new)
    for path in [*files("docs", ".md"), "README.md"]:
        if os.path.basename(path) in ("PORT.md",) or "/src/" in path:
            continue
        text = read(path)
        new = spans_turned(text, whole)
        if new != text:
            with open(path, "w", encoding="utf-8") as f:
                f.write(new)
    return 0


if __name__ == "__main__":
    raise SystemExit(main(sys.argv[1:]))

#!/usr/bin/env python3
"""Brings the repository's own definitions and lemmas to one spelling: words in snake case, types and facts in camel case.

usage: python3 tools/respell.py          once, at the top, after port.py
       python3 tools/respell.py --list   prints the names only, old and new

It goes by text. It leaves alone what is imported from a library. In the answers and invariants of a function it turns the names
that Rattle makes, of goals and of steps of the code, only so far as they contain names of the source, which keep their spelling.
"""

import glob
import re
import sys

PART = r"[\w'′₀-₉ℕℤ]+"
NAME = re.compile(rf"(?<![\w'′₀-₉ℕℤ-])({PART}(?:-{PART})+|[A-Z]\w*_\w+)(?![\w'′₀-₉ℕℤ-])")
# names that Rattle makes in the files of a function's proof
MADE = re.compile(
    r"^(invariant|decreases|measure|returns|loop|if|in|then|else|overflow|bounds|slice_bounds|slice-bounds|match|type|field|prove|nonzero|offset|from|clear|x)-|-requires(-\d+)?$"
)
FUNCTION_FILES = re.compile(r"/proofs/.*/(Answers|Invariants|Choices|Proof)\.antt$")
# library imports, over one line
LIBRARY = re.compile(r"^(?:pub )?(?:ghost )?use (?!Rattle\.(?:OWN)\b)[^;\n]*$", re.M)


def crates():
    return sorted(p.split("/")[1] for p in glob.glob("crates/*/"))


def sources():
    files = glob.glob("crates/*/src/**/*.rt", recursive=True)
    files += glob.glob("crates/*/specs/**/*.antt", recursive=True)
    files += glob.glob("crates/*/proofs/**/*.antt", recursive=True)
    return sorted(files)


def pages():
    return ["README.md"] + sorted(glob.glob("docs/*.md"))


def spelled(name, facts):
    """The new spelling of a name."""
    name = name.replace("getD-", "get_or-")
    if name[0].isupper() and name in facts:
        return "".join(part[:1].upper() + part[1:] for part in re.split("[-_]", name))
    return name.replace("-", "_")


def code_of(path, text):
    """The text without comments and strings, with places kept."""
    blank = lambda m: " " * len(m.group())
    text = re.sub(r'"(?:[^"\\\n]|\\.)*"', blank, text)
    return re.sub(r"--[^\n]*" if path.endswith(".antt") else r"//[^\n]*", blank, text)


def library_names(own):
    """The names that the files import from a library."""
    found = set()
    library = re.compile(LIBRARY.pattern.replace("OWN", "|".join(own)), re.M)
    for path in sources():
        with open(path, encoding="utf-8") as f:
            text = f.read()
        for line in library.findall(text):
            for inside in re.findall(r"\{([^}]*)\}", line):
                for item in inside.split(","):
                    found.update(word.strip() for word in item.split(" as "))
    return found


def facts_of():
    """The names that are types: their definition gives a type."""
    found = set()
    head = re.compile(r"^ *(?:(?:abbrev|unfoldable|pub|private) )*(?:(?:data|record) )?([A-Z][^\s(){}:]*)", re.M)
    for path in sources():
        if path.endswith(".antt"):
            with open(path, encoding="utf-8") as f:
                found.update(head.findall(f.read()))
    return found


def fields_of():
    """The fields of the repository's own records."""
    found = set()
    for path in sources():
        if not path.endswith(".antt"):
            continue
        inside = False
        with open(path, encoding="utf-8") as f:
            for line in f:
                if re.match(r" *(pub )?record\b", line):
                    inside = True
                elif inside and (m := re.match(rf" +(?:pub )?({PART}(?:-{PART})*)(?: \{{[^}}]*\}})* : ", line)):
                    found.add(m.group(1))
                elif line.strip() and not line.lstrip().startswith("--"):
                    inside = False
    return found


def identifiers_of(crate):
    """The names of several words in a crate's source, longest first."""
    found = set()
    for path in glob.glob(f"crates/{crate}/src/**/*.rt", recursive=True):
        with open(path, encoding="utf-8") as f:
            found.update(re.findall(r"\b[a-z]\w*_\w+", code_of(path, f.read())))
    return sorted(found, key=len, reverse=True)


def made_spelling(name, identifiers):
    """A name that Rattle makes, with its own words and the source's names as they are spelled now."""
    name = re.sub(r"\bin-(err|ok|default)\b", r"in_\1", name)
    name = re.sub(r"^(overflow|nonzero|bounds|slice_bounds|offset_bounds)-(add|sub|mul|shl|shr|cast|step|div|rem)\b", r"\1_\2", name)
    name = re.sub(r"^type-inv$", "type_inv", name)
    for identifier in identifiers:
        name = re.sub(rf"(?<![\w]){identifier.replace('_', '-')}(?![\w])", identifier, name)
    return name


def places(path, text, library, fields, owned=()):
    """The places of the names to turn: start, end, name, and whether Rattle makes it."""
    in_function = FUNCTION_FILES.search(path)
    code = code_of(path, text)
    for m in NAME.finditer(code):
        name = m.group(1)
        if name in library or re.match(r"[a-z]\w*$", name):
            continue
        if path.endswith(".rt") and "-" not in name:
            continue
        before = code[: m.start(1)]
        line = before[before.rfind("\n") + 1 :]
        if re.match(r"(pub )?(ghost )?use Rattle\.std\b", line):
            continue
        if in_function:
            head = line in ("", "pub ", "abbrev pub ", "abbrev ")
            if name in owned and not head and not before.endswith("."):
                yield m.start(1), m.end(1), name, False
                continue
            if MADE.search(name) or head and "Answers" in path or before.endswith(".") and name not in fields:
                yield m.start(1), m.end(1), name, True
                continue
        yield m.start(1), m.end(1), name, False


def main():
    own = crates()
    library = library_names(own)
    facts = facts_of()
    fields = fields_of()
    texts = {}
    names = {}
    for path in sources():
        with open(path, encoding="utf-8") as f:
            texts[path] = f.read()
    for path in sorted(texts, key=lambda path: bool(FUNCTION_FILES.search(path))):
        owned = set(names)
        for _, _, name, made in places(path, texts[path], library, fields, owned):
            if not made:
                names[name] = spelled(name, facts)
    if "--list" in sys.argv:
        for name, new in sorted(names.items()):
            print(name, new)
        return
    for path, text in texts.items():
        out, at = [], 0
        identifiers = identifiers_of(path.split("/")[1])
        for start, end, name, made in places(path, text, library, fields, names):
            out += [text[at:start], made_spelling(name, identifiers) if made else names[name]]
            at = end
        new = "".join(out) + text[at:]
        quoted = lambda m: "`" + NAME.sub(lambda n: names.get(n.group(1), n.group(1)), m.group(1)) + "`"
        mark = "--" if path.endswith(".antt") else "//"
        new = re.sub(rf"(?m){mark}.*$", lambda m: re.sub("`([^`]*)`", quoted, m.group()), new)
        if new != text:
            with open(path, "w", encoding="utf-8") as f:
                f.write(new)
    for path in pages():
        with open(path, encoding="utf-8") as f:
            text = f.read()
        new = re.sub("`([^`\n]*)`", lambda m: "`" + NAME.sub(lambda n: names.get(n.group(1), n.group(1)), m.group(1)) + "`", text)
        if new != text:
            with open(path, "w", encoding="utf-8") as f:
                f.write(new)


if __name__ == "__main__":
    main()

#!/usr/bin/env python3
"""Brings the repository's own definitions, fields and lemmas to snake case, as the kit's port.py leaves them to be brought.

usage: tools/respell.py     once, at the top of the repository, right after port.py

A name of specs/ or proofs/ that is in lower camel case or has dashes gets underscores, everywhere: in .antt files, in the clauses and ghost
items of .rt files, in must-fail edits, and between backticks in comments and pages. Where two names would fall together, the one of a lemma
gets `_lem` behind it. A dash before a capital stays, since a fact keeps its capital. Names of functions, strings, inputs and outputs stay.
"""

import collections
import os
import re
import sys

NAME = r"[^\s(){}\[\].;,@\"«»:=λ→]+"
DECLARED = re.compile(rf"^(\s*)((?:(?:abbrev|unfoldable|opaque|pub|private|ruleset|data|record)\s+)*)({NAME}(?:\s+{NAME})*)\s+:(?:\s|$)")
RULESET = re.compile(rf"^(?:pub\s+)?ruleset\s+({NAME})")
RECORD = re.compile(r"^(?:pub\s+)?(?:record|data)\b")
WORD = re.compile(r"[^\s(){}\[\].;,@\"«»\x60⌜⌝]+")
FUNCTION = re.compile(r"\bfn ([a-z_0-9]+)")

# fields that would have the name of a definition beside them
FIELDS = {"look-least": "look_at_least", "look-most": "look_at_most"}

# lemmas that port.py has turned already, and that would have the name of a definition in their file
LEMMAS = {
    "crates/walks/proofs/Classes.antt": {"by_value": "by_value_lem"},
    "crates/schedule/proofs/Spelling.antt": {"is_digit": "is_digit_lem"},
    "crates/view/proofs/Length.antt": {"new_word": "new_word_lem"},
}

# a name of the library
LIBRARY = {"and-false"}


def old_style(word):
    return re.match(r"^[a-z]", word) and (re.search(r"-[a-z0-9]", word) or re.search(r"[a-z0-9'][A-Z]", word))


def snake(word):
    word = re.sub(r"(?<=[a-z0-9'])([A-Z])", lambda m: "_" + m.group(1).lower(), word)
    return re.sub(r"-(?![A-Z])", "_", word)


def files(root):
    for folder, dirs, names in os.walk(root):
        dirs[:] = sorted(d for d in dirs if d not in ("out", ".git", "target", "on"))
        for name in sorted(names):
            yield os.path.join(folder, name)


def text_of(path):
    with open(path, encoding="utf-8") as file:
        return file.read()


def declared(root):
    """each name of old style that is declared, with whether it is ever declared outside of a record or a data type"""
    found = {}
    functions = set()
    taken = set()
    for path in files(os.path.join(root, "crates")):
        if path.endswith(".rt"):
            functions.update(FUNCTION.findall(text_of(path)))
        if not path.endswith(".antt"):
            continue
        inside = False
        for line in text_of(path).splitlines():
            if not line.strip() or line.lstrip().startswith("--"):
                continue
            if not line.startswith(" "):
                inside = bool(RECORD.match(line))
            match = DECLARED.match(line)
            words = match.group(3).split() if match else []
            ruled = RULESET.match(line)
            if ruled:
                words = [ruled.group(1)]
            for word in words:
                if old_style(word):
                    field = inside and line.startswith(" ")
                    found[word] = found.get(word, False) or not field
                else:
                    taken.add(word)
    return found, functions, taken


def table(root):
    found, functions, taken = declared(root)
    specs = {f.replace("_", "-") + "-spec": f + "_spec" for f in functions}
    names = {w: specs.get(w, snake(w)) for w in found}
    groups = collections.defaultdict(list)
    for word, new in names.items():
        groups[new].append(word)
    for new, words in groups.items():
        if len(words) == 1 and new not in taken:
            continue
        for word in words:
            # a definition keeps the plain name; so does a field, which is only met behind a dot or in its record
            if found[word] and "-" in word:
                names[word] = new + "_lem"
    for word, new in specs.items():
        names.setdefault(word, new)
    for word in LIBRARY:
        names.pop(word, None)
    names.update(FIELDS)
    return names


def in_code(text, names):
    return WORD.sub(lambda m: names.get(m.group(0), m.group(0)), text)


def in_antt(text, names):
    lines = []
    for line in text.split("\n"):
        code, comment = line, ""
        match = re.search(r"(?:^|(?<=\s))--(?=\s|$)", line)
        if match:
            code, comment = line[: match.start()], line[match.start() :]
        lines.append(in_code(code, names) + in_prose(comment, names))
    return "\n".join(lines)


def in_prose(text, names):
    def span(match):
        return match.group(0) if match.group(0).startswith("\x60./") else in_code(match.group(0), names)

    return re.sub(r"\x60[^\x60\n]+\x60", span, text)


def main():
    root = os.getcwd()
    names = table(root)
    known = declared(root)[2] | set(names.values())
    if "--list" in sys.argv:
        for word, new in sorted(names.items()):
            print(f"{word}\t{new}")
        return
    for path in files(root):
        if path.endswith(".antt"):
            turn = in_antt
        elif path.endswith(".rt"):
            turn = in_rt
        elif path.endswith(".edit"):
            turn = in_edit
        elif path.endswith(".md") and "/docs/PORT" not in path:
            turn = in_page
        else:
            continue
        text = text_of(path)
        own = LEMMAS.get(os.path.relpath(path, root), {})
        new = in_page(text, names, known) if turn is in_page else turn(text, names | own)
        if new != text:
            with open(path, "w", encoding="utf-8") as file:
                file.write(new)


def in_rt(text, names):
    lines = []
    for line in text.split("\n"):
        match = re.search(r"(?:^|(?<=\s))//", line)
        code, comment = (line[: match.start()], line[match.start() :]) if match else (line, "")
        lines.append(in_code(code, names) + in_prose(comment, names))
    return "\n".join(lines)


def in_edit(text, names):
    lines = text.split("\n")
    return "\n".join(in_code(line, names) if re.match(r"(old|new): ", line) else line for line in lines)


def in_page(text, names, known):
    """a page also has the names that port.py has turned in the crates alone"""

    def word(match):
        old = match.group(0)
        new = names.get(old, snake(old) if old_style(old) else old)
        return new if old in names or new in known else old

    def span(match):
        return WORD.sub(word, match.group(0))

    return re.sub(r"\x60[^\x60\n]+\x60", span, text)


if __name__ == "__main__":
    main()

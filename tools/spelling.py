#!/usr/bin/env python3
"""Brings the repository's own definitions and lemmas to snake case, once, after port.py; types and modules keep their capitals.

usage: python3 tools/spelling.py        at the top of the repository

A name is the repository's own where a file of specs/ or a lemma file of proofs/ declares it. It is respelled in every .antt
and .rt file, in the must-fail edits, and in the pages. Functions of src/, strings, and the names that Rattle makes in a
function's proof folder stay: there a name with dashes is respelled only where the file imports it from the repository, or
where it stands behind a dot. Names that would fall together: the lemma takes the ending _lem.
"""

import os
import re
import sys

NAME = r"[^\s(){}.;,@\"«»:`]+"
DECLARED = re.compile(
    r"(?m)^ *(?:(?:pub|abbrev|unfoldable|opaque|infix[lr]? \d+) )*(?:data |record )?(" + NAME + r")(?: \{[^{}\n]*\}| \([^()\n]*\))* ?:(?!:)"
)
IN_FUNCTION = re.compile(r"/proofs/.+/")
MADE = re.compile(r"\.(Tie|Statement|Goals|Given|Needs|Lts|Knows)\b")
# The definition keeps the name, and the lemma about it takes the ending. `cell_in` is the lemma that port.py respelled.
TOGETHER = {"cell_in": "cell_in_lem"}


def snake(name):
    humps = re.sub(r"(?<=[a-z0-9'])[A-Z]", lambda m: "_" + m[0].lower(), name)
    return humps.replace("-", "_").replace("\u2032", "'")


def is_word(name):
    return name[0].islower() or name.startswith("\u25cc")


def files(*endings):
    found = []
    for top in ("crates", "docs"):
        for folder, inner, names in os.walk(top):
            inner[:] = sorted(it for it in inner if it != "out")
            found += [os.path.join(folder, it) for it in sorted(names) if it.endswith(endings)]
    return found + [it for it in ("README.md",) if it.endswith(endings)]


def read(path):
    with open(path, encoding="utf-8") as f:
        return f.read()


def declared():
    names = set()
    for path in files(".antt"):
        if not IN_FUNCTION.search(path):
            names.update(DECLARED.findall(re.sub(r"--[^\n]*", "", read(path))))
    return {it for it in names if is_word(it)}


def table(names):
    """The new spelling of each name that changes."""
    new = dict(TOGETHER)
    for it in sorted(names):
        if it in TOGETHER or snake(it) == it:
            continue
        rivals = {r for r in names if r != it and r not in TOGETHER and snake(r) == snake(it)}
        new[it] = snake(it) + ("_lem" if rivals and "-" in it else "")
    return new


def replaced(text, new):
    return re.sub(NAME, lambda m: new.get(m[0], m[0]), text)


def operators(new):
    """An operator is used by its bare word, too."""
    return {it.strip("\u25cc"): to.strip("\u25cc") for it, to in new.items() if "\u25cc" in it}


def in_antt(text, new, keeps):
    """Comments hold the names of the text, but dashes join words there."""
    lines = []
    for line in text.split("\n"):
        code, dash, comment = line.partition("--")
        words = {it: to for it, to in new.items() if "-" not in it}
        lines.append(replaced(code, {it: to for it, to in new.items() if it not in keeps}) + dash + replaced(comment, words))
    return "\n".join(lines)


def of_rattle(text, new):
    """The dashed names that Rattle makes in a function's folder: those that the file neither imports from the repository nor projects."""
    code = re.sub(r"--[^\n]*", "", text)
    ours = set()
    for path, items in re.findall(r"(?m)^use (Rattle\.[^\s{]+)\.\{([^}]*)\}", code):
        if not path.startswith("Rattle.std") and not MADE.search(path):
            ours.update(re.findall(NAME, items))
    return {it for it in new if "-" in it and it not in ours}


def behind_dots(text, new):
    return re.sub(r"(?<=[^\s({,])\.(" + NAME + ")", lambda m: "." + new.get(m[1], m[1]), text)


def in_rust(text, new):
    """Clauses and imports; what is quoted stays."""
    parts = re.split(r'("(?:\\.|[^"\\])*"|//[^\n]*)', text)
    return "".join(it if i % 2 else replaced(it, new) for i, it in enumerate(parts))


def in_page(text, new, functions):
    """Only what stands in backticks, and no function of src/."""
    words = {it: to for it, to in new.items() if it not in functions}
    return re.sub(r"`[^`\n]*`", lambda m: replaced(m[0], words), text)


def main():
    names = declared()
    new = table(names)
    new.update(operators(new))
    # An edit and a page have the spelling from before port.py, which respelled some of these names itself.
    older = {it: snake(it) for path in files(".edit", ".md") for it in re.findall(NAME, read(path)) if is_word(it) and snake(it) != it}
    known = {new.get(it, it) for it in names} | set(operators(new).values())
    older = {it: to for it, to in older.items() if it not in new and to in known}
    functions = {it for path in files(".rt") for it in re.findall(r"\bfn (\w+)", read(path))}
    for path in files(".antt", ".rt", ".edit", ".md"):
        text = read(path)
        if path.endswith(".antt") and IN_FUNCTION.search(path):
            said = in_antt(behind_dots(text, new), new, of_rattle(text, new))
        elif path.endswith(".antt"):
            said = in_antt(text, new, set())
        elif path.endswith(".rt"):
            said = in_rust(text, {it: to for it, to in new.items() if it not in TOGETHER})
        elif path.endswith(".edit"):
            said = replaced(text, {**older, **{it: to for it, to in new.items() if it not in TOGETHER}})
        else:
            said = in_page(text, {**older, **{it: to for it, to in new.items() if it not in TOGETHER}}, functions)
        if said != text:
            with open(path, "w", encoding="utf-8") as f:
                f.write(said)
    print(f"{len(new)} names respelled; fallen together, now with _lem:", *sorted(it for it in new if new[it].endswith("_lem")), file=sys.stderr)


main()

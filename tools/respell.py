#!/usr/bin/env python3
"""Spells this repository's definitions and lemmas as the toolchain does: words in snake case, types in camel case, ' for a prime.

usage: python3 tools/respell.py        at the top of the repository, once, behind the toolchain's own script

A word that begins small and has a capital, a dash or the other prime in it is respelled where the repository itself declares it:
definitions, constructors, fields, lemmas and the names inside a proof; in specs/, proofs/, contracts and must-fail edits, and
between backquotes in comments and documents. What stays: names that a library brings (a `use` line of another library than this
repository's), names that the toolchain makes (goals, and what follows `c.`, `l.`, `goal.` or `::`), and what begins with a capital,
as types, modules and the instructions of Lua (MOVE, ..) do, but for the names in SCOPED.
Two names that fall together part by EXCEPT, or a lemma that would be spelled as its function gets `_lem`.
"""

import collections
import os
import re
import sys

# names that would fall together
EXCEPT = {
    "by-graph": "account_by_graph", "by-words": "account_by_words",
    "callStatement": "statement_of_call", "loopStatement": "statement_of_loop",
    "column-says": "column_read_back", "line-says": "line_read_back",
    "openCall": "open_call_numbers",
    "kindNumber": "number_of_kind", "words-at": "words_begin", "values-at": "values_begin", "no-loop": "no_loop",
}
# names that mean something else elsewhere: only where they are declared, or imported from the module. ResultKind is what the
# toolchain's script makes of RK
SCOPED = {
    "Rattle.lua51_instruction.specs.Proto": {"A": "arg_a", "B": "arg_b", "C": "arg_c", "Bx": "arg_bx"},
    "Rattle.follow.specs.WordFollower": {"RK": "rk_operand", "ResultKind": "rk_operand"},
    "Rattle.lua51_value.specs.Value": {"Nil": "nil", "Boolean": "boolean", "Number": "number", "Text": "text"},
}
OF_A_MODULE = {n for names in SCOPED.values() for n in names}
WORD = re.compile(r"(?<![\w'′-])[^\W\d][\w'′]*(?:-[\w'′]+)*(?![\w'′-])")
MARKS = r"(?:(?:pattern|unfoldable|abbrev|pub|axiom) )*"
TOP = re.compile("^" + MARKS + r"([^\s:({]+)(?:\s+\{[^}]*\})*\s*:\s+(\S*)")
INNER = re.compile(r"^\s+(" + MARKS + r")([^\s:({]+)(?:\s+\{[^}]*\})*\s*:\s")
# behind these a name is the toolchain's, or a variant's of src/
BEFORE_MADE = re.compile(r"(?<![\w'-])(c|l|goal)\.$|::$")
COMMENT = re.compile(r"(?:^|(?<=\s))(?:--(?=\s|-)|//)")
BACKQUOTED = re.compile(r"`[^`\n]+`")


def crates():
    with open("crates.txt") as f:
        return [l.split(":")[0].split()[0] for l in f if l.strip() and not l.startswith("#")]


def files(*ends):
    for c in CRATES:
        for folder, dirs, names in os.walk(os.path.join("crates", c)):
            dirs[:] = sorted(d for d in dirs if d != "out")
            yield from (os.path.join(folder, n) for n in sorted(names) if n.endswith(ends))


def read(path):
    with open(path, encoding="utf-8") as f:
        return f.read()


def without_comments(text):
    return "\n".join("" if l.lstrip().startswith("--") else l for l in text.split("\n"))


def imports(text):
    """(module, names) of each `use` line, but for names that the file gives by `as`, which are its own."""
    for m in re.finditer(r"^\s*(?:pub |ghost )*use ([^\s{;]+)\.\{([^}]*)\}", text, re.M):
        yield m[1], {n.strip() for n in m[2].split(",") if " as " not in n}


def is_own(module):
    m = re.match(r"Rattle\.(\w+)", module)
    return bool(m) and m[1] in CRATES


def foreign(text):
    return set().union(*(names for module, names in imports(text) if not is_own(module)))


def declared():
    """The names that the repository declares."""
    found = set()
    for path in files(".antt"):
        text = without_comments(read(path))
        for line in text.split("\n"):
            m = TOP.match(line)
            if m and not m[2].startswith("goal."):
                found.add(m[1])
            m = INNER.match(line)
            if m:
                found.add(m[2])
        found.update(re.findall(r"\blet ([^\s:=(]+) :?", text))
        for m in re.finditer(r"\(([^():=]+?) : |λ ([^.(){}]+)\.", text):
            found.update((m[1] or m[2]).split())
        if not is_of_a_function(path):
            found.update(set(WORD.findall(text)) - foreign(text))
    return {n for n in found if not n[0].isupper()}


def is_of_a_function(path):
    """A file of goals: its other words are mostly the toolchain's."""
    return re.search(r"proofs/.+/", path) is not None


def snake(word):
    word = re.sub(r"(?<=[a-z0-9'])([A-Z])", r"_\1", word.replace("′", "'").replace("-", "_"))
    return re.sub(r"_+", "_", word.lower())


def spellings():
    """The new name of each that changes."""
    by_new = collections.defaultdict(set)
    for n in declared() - set(EXCEPT):
        by_new[snake(n)].add(n)
    new = dict(EXCEPT)
    for word, olds in by_new.items():
        functions = {n for n in olds if "-" not in n}
        for n in olds:
            new[n] = word + "_lem" if functions and n not in functions else word
    return {n: to for n, to in new.items() if n != to}


def scope(path, text):
    """The scoped names that mean this file's, and those behind another name of their module, as `value.Nil`."""
    here = {}
    module = "Rattle." + os.path.splitext(path)[0].split(os.sep, 1)[1].replace(os.sep, ".")
    for m, names in SCOPED.items():
        seen = {n for module_of, ns in imports(text) if module_of == m for n in ns}
        here.update({n: to for n, to in names.items() if module == m or n in seen})
        for alias in re.findall("use " + re.escape(m) + r" as (\w+)", text):
            here.update({alias + "." + n: to for n, to in names.items()})
    return here


def respell(text, new, skip):
    """Each line, and of its comment what stands between backquotes."""
    lines = []
    for line in text.split("\n"):
        m = COMMENT.search(line)
        at = m.start() if m else len(line)
        lines.append(respell_words(line[:at], new, skip) + BACKQUOTED.sub(lambda q: respell_words(q[0], new, skip), line[at:]))
    return "\n".join(lines)


def respell_words(text, new, skip):
    def one(m):
        word = m[0]
        before = text[max(0, m.start() - 40) : m.start()]
        alias = re.search(r"[\w'-]+\.$", before)
        if alias and alias[0] + word in new:
            return new[alias[0] + word]
        argument = before.endswith("{") and text.startswith(" = ", m.end())
        if word in OF_A_MODULE and (alias or argument):
            return word
        if word in skip or word not in new or BEFORE_MADE.search(before):
            return word
        return new[word]

    return WORD.sub(one, text)


def write(path, text, old):
    if text != old:
        with open(path, "w", encoding="utf-8") as f:
            f.write(text)
        return 1
    return 0


def edits(new, scopes, skips):
    """A must-fail edit is spelled as the file that it edits."""
    for path in files(".edit"):
        old, out, target = read(path), [], None
        for line in old.split("\n"):
            m = re.match(r"file: (\S+)", line)
            if m:
                target = os.path.join(os.path.dirname(os.path.dirname(path)), m[1])
            out.append(respell(line, {**new, **scopes.get(target, {})}, skips.get(target, set())) if line.startswith(("old:", "new:")) else line)
        yield write(path, "\n".join(out), old)


def documents(new):
    for folder in (".", "docs"):
        for name in sorted(os.listdir(folder)):
            if name.endswith(".md"):
                path = os.path.join(folder, name)
                old = read(path)
                yield write(path, BACKQUOTED.sub(lambda m: respell_words(m[0], new, set()), old), old)


def main():
    new = spellings()
    changed, scopes, skips = 0, {}, {}
    for path in files(".antt", ".rt"):
        old = read(path)
        scopes[path], skips[path] = scope(path, old), foreign(old)
        if path.endswith(".rt"):
            skips[path] |= {n for n in new if "-" not in n and re.search(r"\b(fn|const|struct|enum) " + n + r"\b", old)}
        changed += write(path, respell(old, {**new, **scopes[path]}, skips[path]), old)
    changed += sum(edits(new, scopes, skips)) + sum(documents(new))
    print(f"{len(new)} names, {changed} files")


CRATES = crates()
if __name__ == "__main__":
    sys.exit(main())

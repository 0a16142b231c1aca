#!/usr/bin/env python3
"""Brings the names of the crates' own definitions, lemmas and fields to snake case: `headFirst` and `head-first` become `head_first`.

usage: tools/respell.py [ROOT]     once, over a tree that the kit's port.py has just turned

A lemma that would have the name of a definition gets `_lem`. Functions of src/, exported C names, strings and constants keep their names.
Files of crates/ (.antt, .rt and .edit) and the pages (README.md, docs/) are rewritten in place; in a page only what stands between backquotes.
"""

import collections
import os
import re
import sys

DECLARED = re.compile(r"\s*(?:(?:unfoldable|abbrev|pub|axiom)\s+)*(?:(?:data|record|ruleset)\s+)?([^\s(){}:;=.,]+)(?:\s*\{[^}]*\})*\s*:(?:\s|$)")
IMPORT = re.compile(r"\s*(?:ghost |pub )*use ([^;{]+?)\.\{(.*)\};?\s*$")
# A name of ASCII letters that is no part of a longer one; x and y where the text is x-y is one name.
NAME = re.compile(r"(?<![\w'\-])[a-z][A-Za-z0-9_']*(?:-[A-Za-z0-9_']+)*(?![\w'\-])")
# Fields and local words that would hide a definition of their new name, by file.
BESIDE = {
    "script/proofs/Reading.antt": {"all_digits": "digits_so_far"},
    "faults/proofs/Steps.antt": {"by_bits": "read_by_bits"},
    "faults/specs/FaultExamples.antt": {"by_bits": "by_bits_lem"},
}


def snake(name):
    name = re.sub(r"([a-z0-9])([A-Z])", r"\1_\2", name)
    return re.sub(r"([A-Z]+)([A-Z][a-z])", r"\1_\2", name).lower().replace("-", "_")


def read(path):
    with open(path, encoding="utf-8") as it:
        return it.read()


def files(root, *endings):
    for folder, dirs, names in os.walk(root):
        dirs[:] = sorted(d for d in dirs if d not in ("out", ".git", "target"))
        for name in sorted(names):
            if name.endswith(endings):
                yield os.path.join(folder, name)


def names_of(crates):
    """The names that the crates' own files declare, and those that they take from the library."""
    own, library = set(), set()
    ours = tuple(f"Rattle.{c}." for c in os.listdir(crates))
    for path in files(crates, ".antt", ".rt"):
        for line in read(path).split("\n"):
            found = IMPORT.match(line)
            if found and not (found[1] + ".").startswith(ours):
                library |= {part.strip().split(" as ")[0] for part in found[2].split(",")}
            if path.endswith("Proof.antt") or path.endswith(".rt") or line.lstrip().startswith(("--", "use ")):
                continue
            found = DECLARED.match(line)
            if found:
                own.add(found[1])
    return own, library


def table_of(crates):
    own, library = names_of(crates)
    turned = {n: snake(n) for n in own - library if n[0].islower() and ("-" in n or re.search("[A-Z]", n))}
    wanted = collections.defaultdict(set)
    for name in own:
        wanted[turned.get(name, name)].add(name)
    lemmas = {n for n, to in turned.items() if "-" in n and len(wanted[to]) > 1}
    return turned, lemmas, {turned.get(n, n) for n in own}


def respelled(text, turned, lemmas, dashes, known):
    """The text with its names turned. Where dashes is False a name with a dash may be two English words, and stays."""

    def turn(found):
        name = found[0]
        to = turned.get(name) or (snake(name) if re.search("[A-Z-]", name) and snake(name) in known else None)
        if to is None or ("-" in name and not dashes):
            return name
        if name in lemmas:
            # a step of a proof is reached by its record, as in c.before.byte-at; a lemma by its module
            before = re.search(r"([\w'\-]+)\.$", text[: found.start()])
            if not before or before[1][0].isupper():
                return to + "_lem"
        return to

    return NAME.sub(turn, text)


def turn_line(line, mark, turned, lemmas, known):
    at = line.find(mark)
    while at > 0 and line[at - 1] != " ":
        at = line.find(mark, at + 1)
    code, comment = (line, "") if at < 0 else (line[:at], line[at:])
    comment = re.sub(r"`[^`]*`", lambda found: respelled(found[0], turned, lemmas, True, known), comment)
    return respelled(code, turned, lemmas, True, known) + respelled(comment, turned, lemmas, False, known)


def turn_edit(text, turned, lemmas, known):
    out, inside = [], ""
    for line in text.split("\n"):
        if line.startswith("file: "):
            inside = line[6:]
        if line.startswith("# wrong "):
            label, _, rest = line.partition(":")
            line = label + ":" + respelled(rest, turned, lemmas, True, known) if re.match(r" [A-Z]", rest) else line
        elif line.startswith(("old: ", "new: ")) and inside.endswith(".antt"):
            line = line[:5] + turn_line(line[5:], "--", turned, lemmas, known)
        out.append(line)
    return "\n".join(out)


def main(root):
    crates = os.path.join(root, "crates")
    turned, lemmas, known = table_of(crates)
    written = 0
    for path in list(files(crates, ".antt", ".rt", ".edit")) + [p for p in [os.path.join(root, "README.md"), *files(os.path.join(root, "docs"), ".md")] if os.path.isfile(p)]:
        was = read(path)
        if path.endswith(".edit"):
            text = turn_edit(was, turned, lemmas, known)
        elif path.endswith(".md"):
            text = re.sub(r"`[^`\n]*`", lambda found: respelled(found[0], turned, lemmas, True, known), was)
        else:
            beside = BESIDE.get(os.path.relpath(path, crates).replace(os.sep, "/"), {})
            text = re.sub(r"(?<![\w'\-])[a-z_]+(?![\w'\-])", lambda found: beside.get(found[0], found[0]), was) if beside else was
            text = "\n".join(turn_line(line, "--" if path.endswith(".antt") else "//", turned, lemmas, known) for line in text.split("\n"))
        if text != was:
            with open(path, "w", encoding="utf-8") as it:
                it.write(text)
            written += 1
    print(f"respell: {len(turned)} names turned, {len(lemmas)} of them with _lem; {written} files written")


if __name__ == "__main__":
    main(sys.argv[1] if len(sys.argv) > 1 else ".")

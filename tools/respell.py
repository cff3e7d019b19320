#!/usr/bin/env python3
"""Respells the repository's own definitions, lemmas, fields and constructors as today's Rattle spells names.

usage: python3 tools/respell.py            at the top of a repository, once, right after the toolchain's own script
       python3 tools/respell.py --in-full  writes the library's AllByRecursion in full, where the toolchain's script gave
                                           it the name of another of the library's definitions

A name that begins with a small letter becomes snake case: `setGround` is `set_ground`, `few-atoms` is `few_atoms`.
Types and modules keep theirs. Names that the prover makes (goals, invariants, measures) keep their hyphens: they stand
in Answers.antt and Invariants.antt with a type `goal.NAME`, and only there. Functions of src/, strings, inputs and
outputs keep their names.
"""
import os
import re
import sys

# Names that would fall together with another, and what they become.
CHOSEN = {
    # these would meet a function of src/ in the same file
    "atomsBelow": "are_atoms_below",
    "differenceIn": "difference_of",
    "equalityIn": "equality_of",
    "joinFor": "entry_join",
    "limitFor": "entry_limit",
    "nextStage": "stage_after",
    "placeAt": "nth_place",
    "tableFits": "all_entries_fit",
    # these meet a method or a field only, which is no trouble
    "atomsFit": "atoms_fit",
    "canSet": "can_set",
    "differenceVariables": "difference_variables",
    "equalityVariables": "equality_variables",
    "firstDue": "first_due",
    "someDead": "some_dead",
    # a lemma and the definition that it is about
    "can-set": "can_set_is",
    "field-bytes": "field_bytes_read",
    "first-due": "first_is_due",
    "given-world": "given_world_is_world",
    "join-holds": "hold_together",
    "limit-fits": "limit_of_fits",
    "pair-sizes": "sizes_of_pair",
    "shown-if": "fits_if_shown",
    "shown-pair": "pair_if_shown",
    "shown-variables": "fits_if_variables_shown",
    "signed-bytes": "signed_bytes_four",
    "tag-of": "tag_of_number",
    "tag-number": "number_of_tag",
    "undoes-writing": "undoing_writing",
    "word-bytes": "word_bytes_of_word",
    # a word that is a tactic's name today
    "ground": "reason",
}

WORD = r"[^\s(){}\[\],;.:\"`λ|]+"
HEAD = re.compile(r"^\s*(?:(?:abbrev|pub|unfoldable|private|operator|trunc|ghost|auto)\s+)*(" + WORD + r")\s*:\s")
MEMBER = re.compile(r"^\s*ghost\s+(?:invariant\s+)?([A-Za-z][\w']*)\s*[:=]")


def files(ending):
    for folder, below, names in os.walk("crates"):
        below[:] = sorted(d for d in below if d not in ("out", "data"))
        for name in sorted(names):
            if name.endswith(ending):
                yield os.path.join(folder, name)


def snake(name):
    name = re.sub(r"(?<=[a-z0-9])([A-Z])", lambda m: "_" + m.group(1).lower(), name)
    return name.replace("-", "_")


def is_word(name):
    return re.match(r"^[a-z][\w'-]*$", name) and not name.startswith("mod")


def defined():
    """The names that the repository defines in specs/, proofs/ and as ghost members."""
    found = {}
    for path in files(".antt"):
        for line in open(path, encoding="utf-8"):
            head = HEAD.match(line)
            if not head or not is_word(head.group(1)):
                continue
            rest = line[head.end():].strip()
            if rest.startswith("goal."):
                continue
            found.setdefault(head.group(1), path)
    for path in files(".rt"):
        for line in open(path, encoding="utf-8"):
            member = MEMBER.match(line)
            if member and is_word(member.group(1)):
                found.setdefault(member.group(1), path)
    return found


def tokens(text):
    return re.split("(" + WORD + ")", text)


def respelled(text, names, path):
    """In a file that answers goals, what follows `c.` or `w.` is a step's name, which the prover makes."""
    answers = os.path.basename(path) in ("Answers.antt", "Invariants.antt", "Proof.antt")
    lines = text.split("\n")
    for n, line in enumerate(lines):
        comment = re.match(r"\s*(//|--)", line)
        parts = tokens(line)
        for i in range(1, len(parts), 2):
            step = answers and "-" in parts[i] and parts[i - 1] == "." and i > 1 and parts[i - 2] in ("c", "w")
            prose = comment and parts[i].isalpha() and parts[i].islower()
            if not step and not prose:
                parts[i] = names.get(parts[i], parts[i])
        lines[n] = "".join(parts)
    return "\n".join(lines)


def in_full():
    """The gate refuses one of the library's definitions under the name of another."""
    alias = "AllByRecursion as All"
    for ending in (".antt", ".rt"):
        for path in files(ending):
            text = open(path, encoding="utf-8").read()
            if alias not in text:
                continue
            lines = text.replace(alias, "AllByRecursion").split("\n")
            for n, line in enumerate(lines):
                if not re.match(r"\s*(//|--)", line):
                    lines[n] = "".join("AllByRecursion" if t == "All" else t for t in tokens(line))
            open(path, "w", encoding="utf-8").write("\n".join(lines))


def main():
    if "--in-full" in sys.argv:
        in_full()
        return
    found = defined()
    names = {n: CHOSEN.get(n, snake(n)) for n in found if CHOSEN.get(n, snake(n)) != n}
    goals = set()
    for path in files(".antt"):
        for line in open(path, encoding="utf-8"):
            head = HEAD.match(line)
            if head and line[head.end():].strip().startswith("goal."):
                goals.add(head.group(1))
    known = set()
    for ending in (".antt", ".rt"):
        for path in files(ending):
            known.update(tokens(open(path, encoding="utf-8").read()))
    new = {}
    trouble = []
    for old, name in sorted(names.items()):
        if old in goals:
            trouble.append(f"{old} is also the name of a goal")
        if name in known and old not in CHOSEN:
            trouble.append(f"{old} ({found[old]}) would meet {name}")
        if name in new:
            trouble.append(f"{old} and {new[name]} would both be {name}")
        new[name] = old
    if "--list" in sys.argv:
        for old, name in sorted(names.items()):
            print(old, name)
    if "--trouble" in sys.argv:
        print("\n".join(trouble))
    if "--list" in sys.argv or "--trouble" in sys.argv:
        return
    if trouble:
        print("\n".join(trouble))
        sys.exit("nothing is written: say in CHOSEN what these become")
    changed = 0
    for ending in (".antt", ".rt", ".edit"):
        for path in files(ending):
            text = open(path, encoding="utf-8").read()
            after = respelled(text, names, path)
            if after != text:
                open(path, "w", encoding="utf-8").write(after)
                changed += 1
    print(f"{len(names)} names, {changed} files")


if __name__ == "__main__":
    main()

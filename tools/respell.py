#!/usr/bin/env python3
"""Spells the repository's own words as today's Rattle does: words in snake case, types and modules in camel case.

    tools/respell.py --list    the words it would respell, and those that would fall together with another word
    tools/respell.py           respells them in crates/: all of .antt, and the ghost lines and comments of .rt

A word is a run of letters, digits and underscores that begins small and has a capital inside, as `le16At`; a lemma's name
may hold one behind or before a dash, as `length-removeAt`. Words of the kit, which a `use` line takes from elsewhere,
strings, exported C names and must-fail edits keep their spelling.
"""
import pathlib
import re
import sys

ROOT = pathlib.Path(__file__).resolve().parent.parent
WORD = re.compile(r"(?<![A-Za-z0-9_])[a-z](?:[a-z0-9]|_(?![A-Z]))*(?:[A-Z][A-Za-z0-9_]*)(?![A-Za-z0-9_])")
USE = re.compile(r"use\s+([^\s{;]+?)(?:\.\{([^}]*)\})?(?:\s+as\s+\S+)?\s*(?:;|$)", re.M)


def snake(word):
    word = re.sub(r"([a-z0-9])([A-Z])", r"\1_\2", word)
    word = re.sub(r"([A-Z])([A-Z][a-z])", r"\1_\2", word)
    return word.lower()


# Lemmas and a field whose names the words' new ones would fall together with, and the files that have both.
LEMMAS = [
    ("add_open", "add-open", ["demands/specs/Reached.antt", "demands/specs/OldBytes.antt"]),
    ("as_core", "as_core_lem", ["demands/specs/FileCommands.antt", "demands/specs/CallEffects.antt",
        "demands/specs/LockEffects.antt", "demands/specs/LockLeaves.antt"]),
    ("as_one", "as_one_lem", ["claims/specs/StatusList.antt", "order/specs/Request7.antt"]),
    ("code_holds", "code_holds_lem", ["soundness/specs/WholeLaws.antt"]),
    ("in_use", "used", ["demands/specs/OutOfRange.antt"]),
    ("in_use", "is_used", ["requests/specs/Noted.antt"]),
    ("names_in", "names_in_lem", ["tables/specs/WholeLaws.antt", "requests/specs/OpenPart.antt", "requests/proofs/opening/open_named/Proof.antt"]),
    ("not_taken", "not_taken_lem", ["demands/specs/Shown.antt"]),
    ("number_ok", "number_ok_lem", ["invariants/specs/Numbered.antt", "claims/specs/Distinct.antt"]),
    ("opens_in", "opens_in_lem", ["tables/specs/WholeLaws.antt", "requests/proofs/reading/remember/Proof.antt", "requests/specs/Noted.antt",
        "requests/proofs/opening/open_file/Proof.antt", "host/proofs/file/load_number/Proof.antt", "host/proofs/open/add_sound/Proof.antt",
        "host/proofs/unchanged/ask_sound/Proof.antt"]),
    ("ranges_in", "ranges_in_lem", ["demands/specs/LockReasons.antt", "demands/specs/HolderWire.antt"]),
]


def sources():
    for path in sorted((ROOT / "crates").rglob("*")):
        if path.suffix in (".antt", ".rt") and "out" not in path.parts:
            yield path


def foreign(texts):
    """Words that are imported from the kit."""
    own = {p.name for p in (ROOT / "crates").iterdir()}
    found = set()
    for text in texts.values():
        for where, names in USE.findall(text):
            parts = where.split(".")
            if parts[0] == "Rattle" and len(parts) > 1 and parts[1] in own:
                continue
            found.update(WORD.findall(where + " " + names))
    return found


def main():
    texts = {path: path.read_text() for path in sources()}
    kept = foreign(texts)
    words = set()
    for text in texts.values():
        words.update(WORD.findall(text))
    words -= kept
    new = {word: snake(word) for word in words}
    if "--list" in sys.argv:
        every = set()
        for text in texts.values():
            every.update(re.findall(r"(?<![A-Za-z0-9_])[A-Za-z_][A-Za-z0-9_]*", text))
        for word in sorted(words):
            clash = " CLASH" if new[word] in every else ""
            print(word, new[word] + clash)
        turned = {}
        for word in words:
            turned.setdefault(new[word], []).append(word)
        for name, old in turned.items():
            if len(old) > 1:
                print("TOGETHER", name, old)
        print("kept", sorted(kept))
        return
    for path, text in texts.items():
        turned = text
        for old, name, files in LEMMAS:
            if str(path.relative_to(ROOT / "crates")) in files:
                turned = re.sub(r"(?<![A-Za-z0-9_.-])" + old + r"(?![A-Za-z0-9_-])", name, turned)
        turned = "".join(
            piece if piece.startswith('b"') else WORD.sub(lambda m: new.get(m[0], m[0]), piece)
            for piece in re.split(r'(b"[^"\n]*")', turned))
        if turned != text:
            path.write_text(turned)


main()

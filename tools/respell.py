#!/usr/bin/env python3
"""Respells this repository's own definitions and lemmas: words in snake case (`ownList` becomes `own_list`). Types,
records and the functions of src/ keep their names. It was run once, after port.py, at the port to today's Rattle.

    tools/respell.py FOLDER        FOLDER: the repository before the port, for the names that it had
    tools/respell.py FOLDER list   prints the names, old and new

Files: the .rt, .antt and .edit files of crates/, README.md and the pages of docs/ that are no history.
"""
import re
import sys
from pathlib import Path

ROOT = Path(__file__).resolve().parent.parent
DECLARED = re.compile(
    r"^ *(?:(?:pub|abbrev|unfoldable) )*(?:(?:record|data|module|ruleset) )?([A-Za-z_][\w'′₀-₉-]*) *:(?!:)", re.M
)
CAMEL = re.compile(r"(?:^|[-_])[a-z][a-z0-9]*[A-Z]")
# A name that would be a crate's, then local names that no line declares.
OTHERS = {
    "clientInformation": "client_information_of",
    "isClear": "is_clear",
    "isLong'": "is_long'",
    "otherBits": "other_bits",
    "otherRoom": "other_room",
    "standsIn": "stands_in",
    "unusedBits": "unused_bits",
}
# Pages that tell what was, under the names of the time.
HISTORY = ("docs/landings/", "docs/PORT", "CHANGELOG.md")


def snake(name):
    parts = []
    for part in name.split("-"):
        if re.match(r"[a-z]", part):
            part = re.sub(r"([a-z0-9])([A-Z])", r"\1_\2", part)
            part = re.sub(r"([A-Z]+)([A-Z][a-z])", r"\1_\2", part).lower()
        parts.append(part)
    return "-".join(parts)


def names(folder):
    """The names of the repository in a folder that are respelled."""
    found = dict(OTHERS)
    for kind in ("specs", "proofs"):
        for file in Path(folder).glob(f"crates/*/{kind}/**/*.antt"):
            for name in DECLARED.findall(file.read_text(encoding="utf-8")):
                if CAMEL.search(name):
                    found.setdefault(name, snake(name))
    return found


def main():
    new = names(sys.argv[1]) | names(ROOT)
    if sys.argv[2:] == ["list"]:
        print("\n".join(f"{old} {new[old]}" for old in sorted(new)))
        return
    token = re.compile(r"(?<![\w'′-])(?:" + "|".join(sorted(map(re.escape, new), key=len, reverse=True)) + r")(?![\w'′-])")
    files = [*ROOT.glob("crates/*/src/**/*.rt"), *ROOT.glob("crates/*/specs/**/*.antt")]
    files += [*ROOT.glob("crates/*/proofs/**/*.antt"), *ROOT.glob("crates/*/must-fail/*.edit")]
    files += [ROOT / "README.md", *ROOT.glob("docs/**/*.md")]
    for file in files:
        if file.relative_to(ROOT).as_posix().startswith(HISTORY):
            continue
        text = file.read_text(encoding="utf-8")
        respelled = token.sub(lambda found: new[found[0]], text)
        if respelled != text:
            file.write_text(respelled, encoding="utf-8")


main()

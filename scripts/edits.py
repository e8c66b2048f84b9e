"""The must-fail edits as scripts/promises and scripts/promised read them."""
import re
from collections import namedtuple
from pathlib import Path

ROOT = Path(__file__).resolve().parent.parent

# One wrong answer of an edit, and the functions that would give it.
Wrong = namedtuple("Wrong", "crate label named comment")


def read(path):
    return path.read_text(encoding="utf-8")


def libraries():
    """The crates in the order of crates.txt, without the programs."""
    crates = re.findall(r"^(\w+)[^:\n#]*:", read(ROOT / "crates.txt"), re.M)
    return [crate for crate in crates if not (ROOT / "crates" / crate / "src/main.rt").exists()]


def tried_on(crate):
    """The wrong answers that the edits of a crate try."""
    for file in sorted((ROOT / "crates" / crate / "must-fail").glob("*.edit")):
        # Each run of `promise:` lines with the comment lines after it; an edit without any lacks both.
        for functions, comment in re.findall(r"((?:^promise:.*\n)+)((?:^#.*\n)*)", read(file), re.M) or [("", "")]:
            named = re.findall(r"^promise:\s*(\S+)", functions, re.M)
            yield Wrong(crate, file.stem, named, " ".join(re.findall(r"^#\s*(.*\S)", comment, re.M)))

"""The files of the repository, as its own checks read them."""

import os
import re

ROOT = os.path.dirname(os.path.dirname(os.path.abspath(__file__)))
SKIPPED = {"out", ".git"}

# `pub fn NAME`, `fn NAME` and their like, with the indentation before them.
FUNCTION = re.compile(r"^(\s*)(?:pub(?:\([a-z]+\))? )?(?:const )?fn (\w+)")
# A definition of an antt file, or a field, with the name that it gives.
DEFINED = re.compile(r"^\s*(?:abbrev |unfoldable )?(?:pub )?(?:abbrev |data |record )?(?:pub )?([^\s:(]+)( .*?)? : ")


def paths(*endings):
    """The files with one of these endings, in order, as paths from the top."""
    found = []
    for folder, folders, names in os.walk(ROOT):
        folders[:] = sorted(it for it in folders if it not in SKIPPED)
        found += [os.path.relpath(f"{folder}/{it}", ROOT) for it in sorted(names) if it.endswith(endings)]
    return found


def text(path):
    """What a file says."""
    with open(f"{ROOT}/{path}", encoding="utf-8") as it:
        return it.read()


def is_code(path):
    """Whether the file is code that is no test: not called so, and no module that its crate has for tests alone."""
    if not path.endswith(".rt") or "test" in os.path.basename(path):
        return False
    top, _, rest = path.partition("/src/")
    root = f"{top}/src/lib.rt"
    stem = rest.removesuffix(".rt").split("/")[0]
    return not (os.path.exists(f"{ROOT}/{root}") and f"#[cfg(test)]\nmod {stem};" in text(root))


def headline(path):
    """The first line that says what a file is, without its sign, or '' where there is none."""
    said = []
    for line in text(path).split("\n"):
        comment = re.match(r"^(?://!|--) ?(.*)$", line)
        if comment is None:
            break
        said.append(comment.group(1))
    return re.split(r"(?<=[.:]) (?=[A-Z])", " ".join(said))[0].rstrip(":")

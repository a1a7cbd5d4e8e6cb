#!/usr/bin/env python3
"""Applies the patches of a list to a folder of source files.

usage: patch.py LIST FOLDER

A patch whose old text does not stand in its file exactly once is an error:
the published source is then not the one that the patch was written for.
"""

import pathlib
import sys


def fail(message):
    sys.exit(f"patch.py: {message}")


def read_patches(lines):
    """Yields (file, reason, old, new); text before the first patch is prose."""
    patch, part = {}, None
    for line in lines:
        if part in ("old", "new") and line not in ("new:", "end"):
            patch[part].append(line)
        elif line.startswith(("file: ", "why: ")):
            key, _, rest = line.partition(": ")
            patch[key] = rest
        elif line in ("old:", "new:"):
            part = line[:-1]
            patch[part] = []
        elif line == "end":
            yield patch["file"], patch["why"], "\n".join(patch["old"]), "\n".join(patch["new"])
            patch, part = {}, None
    if patch:
        fail("the list ends inside a patch")


def apply(path, why, old, new):
    text = path.read_text()
    # Whole lines only, so that no old text can match a part of one.
    count = ("\n" + text).count("\n" + old + "\n")
    if count != 1:
        fail(f"{path}: the old text stands {count} times, not once. Patch: {why}\n{old}")
    path.write_text(("\n" + text).replace("\n" + old + "\n", "\n" + new + "\n")[1:])


def main():
    if len(sys.argv) != 3:
        sys.exit(__doc__)
    patches = list(read_patches(pathlib.Path(sys.argv[1]).read_text().split("\n")))
    for file, why, old, new in patches:
        path = pathlib.Path(sys.argv[2]) / file
        if not path.is_file():
            fail(f"no such file: {path}. Patch: {why}")
        apply(path, why, old, new)
    print(f"{len(patches)} patches applied")


main()

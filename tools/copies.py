"""A copy of the repository for the tools that have the toolchain work beside the work tree, which stays as it is."""
import os
import shutil


def copied(repository, to, leave=(), put=()):
    """Copies to a folder what the toolchain reads: the list of crates, their files, and their libraries where they are built. Of
    each crate the folders `leave` stay behind, and each pair of `put` is a folder and the name that it has in the copy."""
    for name in ("crates.txt", "HANDLES"):
        if os.path.isfile(f"{repository.top}/{name}"):
            shutil.copyfile(f"{repository.top}/{name}", f"{to}/{name}")
    for crate in repository.crates:
        old, new = f"{repository.top}/crates/{crate}", f"{to}/crates/{crate}"
        shutil.copytree(old, new, ignore=lambda at, _, top=old: ["out", *leave] if at == top else [])
        for part, name in (("out/rlib", "out/rlib"), *put):
            if os.path.isdir(f"{old}/{part}"):
                shutil.copytree(f"{old}/{part}", f"{new}/{name}")

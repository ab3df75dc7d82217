"""Several crates of tests as one, whose program is read once for all of them."""
import os
import re

import crates
from crates import TOP, text_of


def write_tree(tree, joined, of_tests):
    """A tree of the repository's crates with one more, in which the root of each of these crates of tests is a module. Each line
    keeps its number."""
    src = f"{tree}/crates/{joined}/src"
    os.makedirs(src)
    for name in crates.lines():
        os.symlink(f"{TOP}/crates/{name}", f"{tree}/crates/{name}")
    for name in of_tests:
        write_module(src, name)
    write(f"{src}/lib.rt", "#![tactic(auto)]\n\n" + "".join(f"#[cfg(test)]\nmod {name};\n" for name in of_tests))
    named = dict.fromkeys(name for crate in of_tests for name in crates.named_by(crate))
    write(f"{tree}/crates.txt", "\n".join([*crates.lines().values(), f"{joined}: {' '.join(named)}\n"]))


def write_module(src, crate):
    """The files of a crate as those of a module of its name. (Proofs and definitions that they name stay as they are: they are
    read, and looked up by nothing.)"""
    for path in crates.sources(crate):
        inside = path.partition("/src/")[2]
        text = text_of(f"{TOP}/{path}").replace("#![tactic(auto)]", "")
        to = f"{crate}.rt" if inside == "lib.rt" else f"{crate}/{inside}"
        write(f"{src}/{to}", re.sub(r"\bcrate::(?!proofs\b|specs\b)", f"crate::{crate}::", text))


def write(path, text):
    os.makedirs(os.path.dirname(path), exist_ok=True)
    with open(path, "w", encoding="utf-8") as it:
        it.write(text)


def in_repository(text):
    """A text with the places of the crates in place of those of their modules."""
    text = re.sub(r"(?<![\w/])src/(\w+)/(?=[\w/]+\.rt\b)", r"crates/\1/src/", text)
    return re.sub(r"(?<![\w/])src/(\w+)\.rt\b", r"crates/\1/src/lib.rt", text)

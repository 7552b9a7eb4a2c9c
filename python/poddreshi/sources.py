"""The sources that the library and the listing program are made of, known by their content and not by file times."""
import hashlib
import re
from pathlib import Path
from typing import Dict, List

LIBRARIES = ("poddreshi_c", "poddreshi_reader_c")  # which are joined to one: of each crate the prover makes a library by itself
MADE = (*LIBRARIES, "listing")  # what is built: the library and a program
PARTS = ("src", "specs", "proofs")
RECIPE = 3  # raised where the way of building changes


def _needs(root: Path) -> Dict[str, List[str]]:
    """Each crate and what it depends on, from crates.txt."""
    text = (root / "crates.txt").read_text(encoding="utf-8")
    return {name: others.split() for name, others in re.findall(r"^(\w+)(?: staticlib)?:([^#\n]*)", text, re.M)}


def crates(root: Path) -> Dict[str, List[str]]:
    """The crates that what is built is made of; those that are not in the repository come with the prover."""
    needs, found, queue = _needs(root), {}, list(MADE)
    while queue:
        name = queue.pop()
        if name in needs and name not in found:
            found[name] = needs[name]
            queue += needs[name]
    return found


def digest(root: Path) -> str:
    """A name for the sources as they stand."""
    total = hashlib.sha256(f"recipe {RECIPE}\n".encode())
    for name, needed in sorted(crates(root).items()):
        total.update(f"{name}: {' '.join(needed)}\n".encode())
        for part in PARTS:
            for path in sorted((root / "crates" / name / part).rglob("*")):
                if path.is_file():
                    content = hashlib.sha256(path.read_bytes()).hexdigest()
                    total.update(f"{path.relative_to(root).as_posix()} {content}\n".encode())
    return total.hexdigest()[:16]

"""Where the library and the listing program are: in a built checkout, in an installed tree, or where the caller says.

Beside the shared library, wherever it is, stands the folder `poddreshi` with the program `listing`.
"""
import os
from functools import lru_cache
from pathlib import Path
from typing import Optional

from . import sources
from .failures import Failure

LIBRARY = "libpoddreshi.so"
PACKAGE = Path(__file__).resolve().parent


def checkout() -> Optional[Path]:
    """The folder of the sources, where the package stands in a checkout."""
    root = PACKAGE.parent.parent
    return root if PACKAGE.parent.name == "python" and (root / "crates.txt").is_file() else None


@lru_cache(maxsize=None)
def built(root: Path) -> Path:
    """The folder of what is built from the sources as they stand; it is there when that is done."""
    return root / "target" / "front" / sources.digest(root)


def told() -> Optional[Path]:
    """The library that the caller names; a bare name is left to the system's loader."""
    name = os.environ.get("PODDRESHI_LIBRARY")
    return Path(os.path.abspath(name) if os.sep in name else name) if name else None


def library() -> Path:
    """The shared library."""
    if told():
        return told()
    root = checkout()
    if root:
        return built(root) / "lib" / LIBRARY
    installed = PACKAGE.parent.parent / LIBRARY
    return installed if installed.is_file() else Path(LIBRARY)


def listing() -> Path:
    """The listing program. Beside a bare name it is not looked for: that would be in the folder where the user happens to be."""
    path = library()
    if not path.is_absolute():
        raise Failure("the listing program stands beside the library; name that with its folder in PODDRESHI_LIBRARY")
    return path.parent / "poddreshi" / "listing"

"""Laying down a tree that runs with no prover and no compiler, and that may be moved: every path in it is relative."""
import os
from pathlib import Path
from typing import Dict

from . import files, places
from ._version import __version__
from .building import STATIC

PKG_CONFIG = f"""\
prefix=${{pcfiledir}}/../..
libdir=${{prefix}}/lib
includedir=${{prefix}}/include

Name: poddreshi
Description: Service windows, their distance tree and ten-byte tags, proved
Version: {__version__}
Cflags: -I${{includedir}}
Libs: -L${{libdir}} -lpoddreshi
"""


def staged(prefix: str) -> Path:
    """Where the tree is laid down: PREFIX, below DESTDIR where that is set, as for `make install`."""
    return Path(os.environ.get("DESTDIR", "") + os.path.abspath(prefix))


def _single_files(root: Path, built: Path) -> Dict[str, tuple]:
    """Each file of the tree outside the package: its content and its mode."""
    lib = built / "lib"
    return {
        f"lib/{STATIC}": ((lib / STATIC).read_bytes(), 0o644),
        f"lib/{places.LIBRARY}": ((lib / places.LIBRARY).read_bytes(), 0o755),
        "lib/pkgconfig/poddreshi.pc": (PKG_CONFIG.encode(), 0o644),
        "include/poddreshi.h": ((root / "include" / "poddreshi.h").read_bytes(), 0o644),
        "bin/poddreshi": ((root / "poddreshi").read_bytes(), 0o755),
    }


def _folder(target: Path, built: Path) -> None:
    """The package and the listing program, in a folder that is put in the place of an older one."""
    with files.new_folder(target, over=True) as folder:
        for module in places.PACKAGE.rglob("*.py"):
            copy = folder / module.relative_to(places.PACKAGE.parent)
            copy.parent.mkdir(parents=True, exist_ok=True)
            files.replace(copy, module.read_bytes(), 0o644)
        files.replace(folder / "listing", (built / "lib" / "poddreshi" / "listing").read_bytes(), 0o755)


def install(root: Path, built: Path, prefix: str) -> Path:
    target = staged(prefix)
    _folder(target / "lib" / "poddreshi", built)
    for name, (content, mode) in _single_files(root, built).items():
        (target / name).parent.mkdir(parents=True, exist_ok=True)
        files.replace(target / name, content, mode)
    return target

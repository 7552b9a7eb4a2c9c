"""The version. It stands in one place, the macro of the C header, and everything else takes it from there."""
import re
from pathlib import Path

_FOLDERS = Path(__file__).resolve().parents


def _stated() -> str:
    """As the header says that the package stands beside, in a checkout or an installed tree, or else as pip has recorded it."""
    for root in (_FOLDERS[2], _FOLDERS[3]):  # of python/poddreshi and of lib/poddreshi/poddreshi
        header = root / "include" / "poddreshi.h"
        if header.is_file():
            return re.search(r'^#define PODDRESHI_VERSION "(.+)"$', header.read_text(encoding="utf-8"), re.M)[1]
    from importlib import metadata

    try:
        return metadata.version("poddreshi")
    except metadata.PackageNotFoundError:  # a copy of the package alone
        return "unknown"


__version__ = _stated()

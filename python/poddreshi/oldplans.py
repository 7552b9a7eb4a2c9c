"""Plan files of before the minimum handover, whose header has four bytes less. They are known by their length, which no plan file
has now."""
from .figures import HEADER, HEADER_LENGTH, MINIMUM_LEAST, OLD_HEADER, OLD_HEADER_LENGTH, PLAN_LIMIT, WINDOW_LENGTH, WINDOWS_LIMIT
from .wording import bytes_of, counted

OLD = "a plan file of before the minimum handover"
HINT = f"it looks like {OLD}; `poddreshi renew` makes a new one of it"


def unlike(file: bytes) -> str:
    """Why a file is no old plan file, in words; none where it is one."""
    length = bytes_of(file, PLAN_LIMIT)
    if len(file) < OLD_HEADER_LENGTH:
        return f"has {length}; {OLD} has at least {OLD_HEADER_LENGTH}"
    _, windows = OLD_HEADER.unpack_from(file)
    if windows > WINDOWS_LIMIT:
        return f"is said to have {counted(windows, 'window')}; a plan has at most {WINDOWS_LIMIT:,}"
    rest = WINDOW_LENGTH * windows
    if len(file) == HEADER_LENGTH + rest:
        return f"has {length}; with {counted(windows, 'window')} that is a plan file with a minimum handover already"
    if len(file) != OLD_HEADER_LENGTH + rest:
        return f"has {length}; {OLD} has exactly {OLD_HEADER_LENGTH + rest:,} with {counted(windows, 'window')}"
    return ""


def renewed(file: bytes, minimum: int = MINIMUM_LEAST) -> bytes:
    """The file that an old plan file becomes, of which the library has still to say whether it is a plan."""
    words = unlike(file)
    if words:
        raise ValueError(f"the file {words}")
    return HEADER.pack(*OLD_HEADER.unpack_from(file), minimum) + bytes(file[OLD_HEADER_LENGTH:])

"""The figures of the formats, each in one place."""
import struct

HEADER = struct.Struct("<HHI")  # of a plan file: plan number, number of windows, minimum handover
HEADER_LENGTH = HEADER.size
OLD_HEADER = struct.Struct("<HH")  # of before the minimum handover
OLD_HEADER_LENGTH = OLD_HEADER.size
WINDOW = struct.Struct("<II")  # offset, length
WINDOW_LENGTH = WINDOW.size
WINDOWS_LIMIT = 2048  # windows of a plan, at most
PLAN_LIMIT = HEADER_LENGTH + WINDOW_LENGTH * WINDOWS_LIMIT  # bytes of the longest plan file
PLAN_NUMBER_LENGTH, PLAN_NUMBER_LIMIT = 2, 65535  # bytes of the number that a plan file and a tag begin with, and the greatest
MINIMUM_LEAST, MINIMUM_LIMIT = 1, 86_400  # the least and the greatest minimum handover; no window is shorter than its plan's
END_LIMIT = 2**32 - 1  # the greatest end of a window
NUMBER_LIMIT = 2**32 - 1  # the greatest offset, length or minimum that a plan file can hold

TAG = struct.Struct("<5H")
TAG_LENGTH = TAG.size
TAG_FIELDS = ("plan number", "component", "depth", "rank", "rank of the last")
SHORT_TAG = struct.Struct("<4H")  # all but the rank of the last
SHORT_TAG_LENGTH = SHORT_TAG.size
SHORT_TAG_FIELDS = TAG_FIELDS[:4]
FIELD_LIMIT = 2047  # the greatest number in a tag's field after the plan number
POSITION_LIMIT = 2**64 - 1  # the greatest position that the library can be asked about

# What the command reads of an input. A tag file of a plan has 2,048 tags at most, but one may be put together of several.
TAGS_LIMIT = 65_535
TEXT_LIMIT = 2**20

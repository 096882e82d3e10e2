"""Hardens AWHILE programs, which are tables of bytes, and labels them, by the proved library libflow.so.1.

The library is the file that the environment variable FLOW_LIBRARY names, else the one that the loader finds.
"""

import ctypes
import os

_NUMBER_BYTES = 8  # of a number in an answer
_LAST_WITH_PLACE = 7  # FLOW_EXTRA_BYTES: from the next refusal up the place is 0
_OUTPUT_SHORT = 23  # FLOW_OUTPUT_SHORT: the result is longer than the memory lent for it
_FIRST_ROOM = 1 << 16  # more than any result takes today


class Refused(ValueError):
    """The library refused a table: by the number of a refusal (include/flow.h), at a byte of the table."""

    def __init__(self, number: int, place: int):
        super().__init__(number, place)
        self.number = number
        self.place = place

    def __str__(self) -> str:
        where = f" at byte {self.place}" if self.number <= _LAST_WITH_PLACE else ""
        return f"refused by {self.number}{where}"


_library = ctypes.CDLL(os.environ.get("FLOW_LIBRARY") or "libflow.so.1")
for _entry in (_library.flow_harden, _library.flow_sheet):
    _entry.restype = ctypes.c_uint64
    _entry.argtypes = [ctypes.c_char_p, ctypes.c_size_t] * 3  # table, result and answer


def _written(entry, table: bytes) -> bytes:
    """What the entry writes for a table.  Memory that is too short for it is doubled."""
    if not isinstance(table, bytes):
        raise TypeError(f"a table is bytes, not {type(table).__name__}")
    answer = ctypes.create_string_buffer(2 * _NUMBER_BYTES)
    refusal, room = _OUTPUT_SHORT, _FIRST_ROOM
    while refusal == _OUTPUT_SHORT:
        result = ctypes.create_string_buffer(room)
        refusal = entry(table, len(table), result, room, answer, len(answer))
        room *= 2
    second = int.from_bytes(answer.raw[_NUMBER_BYTES:], "little")
    if refusal != 0:
        raise Refused(refusal, second)
    return result.raw[:second]


def harden(table: bytes) -> bytes:
    """The hardened table; its last variable is the flag, which must be 0 where a run starts."""
    return _written(_library.flow_harden, table)


def sheet(table: bytes) -> bytes:
    """The label sheet of a table."""
    return _written(_library.flow_sheet, table)

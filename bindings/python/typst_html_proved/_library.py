"""The calls of the shared library, as typst_html.h declares them."""

from __future__ import annotations

import ctypes
import os
from enum import IntEnum
from pathlib import Path
from types import MappingProxyType
from typing import Any, Final, Mapping

NAME: Final = "libtypst_html.so"

VERSION: Final = 8
"""The version of the library's calls that this package was made for."""


class Status(IntEnum):
    """The status of a reply."""

    DONE = 0
    REFUSED = 1
    BAD_INPUT = 2
    OUT_OF_MEMORY = 3
    TOO_SHORT = 4
    DEAD_LINKS = 5


class Reply(ctypes.Structure):
    """The reply of a call: its status, and the place. The status of another library may be none of `Status`."""

    _fields_ = [
        ("length", ctypes.c_size_t),
        ("span", ctypes.c_uint64),
        ("line", ctypes.c_size_t),
        ("column", ctypes.c_size_t),
        ("status", ctypes.c_uint8),
        ("number", ctypes.c_uint8),
    ]


DECLARED: Final[Mapping[str, tuple[Any, dict[str, Any]]]] = MappingProxyType({
    "typst_html_version": (ctypes.c_uint32, {}),
    "typst_html_write": (Reply, {
        "kind": ctypes.c_uint8, "layout": ctypes.c_uint8, "input": ctypes.c_char_p, "length": ctypes.c_size_t,
        "output": ctypes.c_void_p, "room": ctypes.c_size_t,
    }),
    "typst_html_document": (Reply, {
        "layout": ctypes.c_uint8, "links": ctypes.c_uint8, "limit": ctypes.c_uint32, "input": ctypes.c_char_p,
        "length": ctypes.c_size_t, "output": ctypes.c_void_p, "room": ctypes.c_size_t,
    }),
    "typst_html_fragment": (Reply, {
        "level": ctypes.c_uint8, "limit": ctypes.c_uint32, "input": ctypes.c_char_p, "length": ctypes.c_size_t,
        "output": ctypes.c_void_p, "room": ctypes.c_size_t,
    }),
    "typst_html_dead_links": (Reply, {
        "limit": ctypes.c_uint32, "input": ctypes.c_char_p, "length": ctypes.c_size_t,
        "output": ctypes.c_void_p, "room": ctypes.c_size_t,
    }),
    "typst_html_unused": (Reply, {
        "limit": ctypes.c_uint32, "input": ctypes.c_char_p, "length": ctypes.c_size_t,
        "output": ctypes.c_void_p, "room": ctypes.c_size_t,
    }),
    "typst_html_check": (Reply, {
        "limit": ctypes.c_uint32, "page": ctypes.c_char_p, "length": ctypes.c_size_t,
        "output": ctypes.c_void_p, "room": ctypes.c_size_t,
    }),
    "typst_html_links": (Reply, {
        "limit": ctypes.c_uint32, "page": ctypes.c_char_p, "length": ctypes.c_size_t,
        "output": ctypes.c_void_p, "room": ctypes.c_size_t,
    }),
})  # fmt: skip
"""The result of each call, and its arguments, by name and in order."""


def library_path() -> Path:
    """Returns the path of the library: in the folder that TYPST_HTML_LIB names, or else beside this file, or else as it is
    built."""
    here = Path(__file__).resolve().parent
    if "TYPST_HTML_LIB" in os.environ:
        return Path(os.environ["TYPST_HTML_LIB"]) / NAME
    beside = here / NAME
    return beside if beside.exists() else here.parent.parent / "out" / "lib" / NAME


def _loaded() -> ctypes.CDLL:
    """Returns the library, with its calls declared. Raises `ImportError` if it is missing or has another version."""
    path = library_path()
    try:
        library = ctypes.CDLL(str(path))
    except OSError as error:
        raise ImportError(f"{error} (bindings/build makes the library, and each wheel has it)") from error
    if (version := library.typst_html_version()) != VERSION:
        raise ImportError(f"{path} has version {version}, not {VERSION}")
    for name, (gives, takes) in DECLARED.items():
        call = getattr(library, name)
        call.restype, call.argtypes = gives, list(takes.values())
    return library


LIBRARY: Final = _loaded()


def called(name: str, data: bytes, **numbers: int) -> tuple[Reply, bytes]:
    """Makes a call with these numbers, and returns its reply and the text. The other threads of Python run meanwhile."""
    call, (_, takes) = getattr(LIBRARY, name), DECLARED[name]
    room = 4 * len(data) + 1024
    while True:
        output = ctypes.create_string_buffer(room)
        given = {**numbers, "input": data, "page": data, "length": len(data), "output": output, "room": room}
        reply = call(*(given[one] for one in takes))
        if reply.status != Status.TOO_SHORT or reply.length <= room:
            return reply, output.raw[: reply.length] if reply.length < room else output.raw
        room = reply.length

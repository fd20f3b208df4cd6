#!/usr/bin/env python3
"""Prints the symbol of a text at level L, `#` dark and `.` light, through the shared object.

    example.py LIBRARY TEXT
"""

import ctypes
import sys


class Shape(ctypes.Structure):
    """`sicklespan_shape` of bindings/c/sicklespan.h."""

    _fields_ = [("width", ctypes.c_int32), ("version", ctypes.c_int32), ("mask", ctypes.c_int32),
                ("micro", ctypes.c_bool), ("level", ctypes.c_int8)]


class Options(ctypes.Structure):
    """`sicklespan_options`."""

    _fields_ = [("level", ctypes.c_int32), ("min_version", ctypes.c_int32),
                ("max_version", ctypes.c_int32), ("strongest", ctypes.c_int32)]


def library(path):
    """The library, with the types of the functions that are called here."""
    it = ctypes.CDLL(path)
    it.sicklespan_auto.argtypes = [
        ctypes.c_char_p, ctypes.c_size_t, ctypes.POINTER(Options), ctypes.c_char_p, ctypes.c_size_t,
        ctypes.POINTER(Shape)]
    it.sicklespan_auto.restype = ctypes.c_int32
    it.sicklespan_greatest_size.restype = ctypes.c_size_t
    it.sicklespan_status_text.argtypes = [ctypes.c_int32]
    it.sicklespan_status_text.restype = ctypes.c_char_p
    return it


def symbol(it, text, level):
    """The rows of the best symbol of a text, each a list of 1 (dark) and 0."""
    data = text.encode()
    room = it.sicklespan_greatest_size()
    modules, shape, options = ctypes.create_string_buffer(room), Shape(), Options(level, 1, 40, 0)
    status = it.sicklespan_auto(data, len(data), ctypes.byref(options), modules, room,
                                ctypes.byref(shape))
    if status != 0:
        raise ValueError(it.sicklespan_status_text(status).decode())
    width = shape.width
    return [list(modules.raw[y * width:(y + 1) * width]) for y in range(width)]


if __name__ == "__main__":
    if len(sys.argv) != 3:
        sys.exit("usage: example.py LIBRARY TEXT")
    for row in symbol(library(sys.argv[1]), sys.argv[2], 0):
        print("".join(".#"[module] for module in row))

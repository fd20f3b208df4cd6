"""`libsicklespan.so`, by ctypes: the functions of sicklespan.h, with their types.

The library is the file that the environment variable SICKLESPAN_LIBRARY names, else the one beside
this file, which a wheel has, else the one that the system finds.
"""

import ctypes
import os
import platform
from ctypes import POINTER, c_bool, c_char_p, c_int8, c_int32, c_size_t


class Shape(ctypes.Structure):
    """`sicklespan_shape`."""

    _fields_ = [("width", c_int32), ("version", c_int32), ("mask", c_int32), ("micro", c_bool),
                ("level", c_int8)]


class Options(ctypes.Structure):
    """`sicklespan_options`."""

    _fields_ = [("level", c_int32), ("min_version", c_int32), ("max_version", c_int32),
                ("strongest", c_int32)]


class Settings(ctypes.Structure):
    """`sicklespan_settings`: a number below 0 stands for the default."""

    _fields_ = [(name, c_int32) for name in (
        "scale", "quiet", "module_mm", "dpi", "inverted", "at_x", "at_y")]


class Fault(ctypes.Structure):
    """`sicklespan_fault`."""

    _fields_ = [("element", c_size_t), ("character", c_size_t), ("identifier", c_int32),
                ("reason", c_char_p)]


def _opened() -> ctypes.CDLL:
    beside = os.path.join(os.path.dirname(os.path.abspath(__file__)), "libsicklespan.so.0")
    usual = beside if os.path.exists(beside) else "libsicklespan.so.0"
    name = os.environ.get("SICKLESPAN_LIBRARY") or usual
    try:
        return ctypes.CDLL(name)
    except OSError as error:
        here = f"{platform.system()} on {platform.machine()}"
        raise ImportError(
            "sicklespan needs its library, which is for Linux on x86-64 with glibc; this is "
            f"{here}, where {name} is not found or not taken: {error}") from error


def _declare(name: str, result: object, *arguments: object) -> None:
    try:
        function = getattr(library, name)
    except AttributeError as error:
        raise ImportError(f"the library has no {name}, so it is another one: {error}") from error
    function.restype, function.argtypes = result, arguments


library = _opened()
_AT_THE_END = (c_char_p, c_size_t, POINTER(Shape))
for _name in ("sicklespan_bytes", "sicklespan_bytes_without_kanji", "sicklespan_text",
              "sicklespan_smallest_text", "sicklespan_elements", "sicklespan_gs1",
              "sicklespan_gs1_unchecked"):
    _declare(_name, c_int32, c_char_p, c_size_t, POINTER(Options), *_AT_THE_END)
_declare("sicklespan_gs1_fault", c_int32, c_char_p, c_size_t, POINTER(Fault))
_LINK = (c_char_p, c_size_t, c_char_p, c_size_t)
_declare("sicklespan_link", c_int32, *_LINK, POINTER(Options), *_AT_THE_END)
_declare("sicklespan_link_text", c_int32, *_LINK, c_char_p, c_size_t, POINTER(c_size_t))
_declare("sicklespan_link_fault", c_int32, *_LINK, POINTER(Fault))
for _name in ("sicklespan_micro", "sicklespan_micro_text"):
    _declare(_name, c_int32, c_char_p, c_size_t, c_int32, *_AT_THE_END)
for _name in ("sicklespan_sequence", "sicklespan_text_sequence"):
    _declare(_name, c_int32, c_char_p, c_size_t, POINTER(c_size_t), c_size_t, c_int32, c_int32,
             *_AT_THE_END)
for _name in ("sicklespan_cuts", "sicklespan_text_cuts"):
    _declare(_name, c_int32, c_char_p, c_size_t, c_int32, c_int32, POINTER(c_size_t), c_size_t,
             POINTER(c_size_t))
_declare("sicklespan_picture", c_int32, c_char_p, c_int32, c_int32, POINTER(Settings), c_char_p,
         c_size_t, POINTER(c_size_t))
_declare("sicklespan_check", c_int32, c_int32, c_char_p, c_size_t, POINTER(Options),
         POINTER(c_size_t))
_declare("sicklespan_wrong_setting", c_char_p, c_int32, POINTER(Settings))
_declare("sicklespan_status_text", c_char_p, c_int32)
_declare("sicklespan_version", c_char_p)
_declare("sicklespan_greatest_size", c_size_t)
_declare("sicklespan_version_of_width", c_int32, c_int32)
if library.sicklespan_greatest_size() == 0:
    raise ImportError(
        "sicklespan needs a processor with x86-64-v2 (SSE4.2 and POPCNT; every one since about "
        "2013), and this one lacks it")

__version__: str = library.sicklespan_version().decode()

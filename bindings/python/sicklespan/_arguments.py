"""Arguments: what is a TypeError that names the parameter, and what is out of its bounds."""

import operator
from typing import Optional, Tuple, Union

from ._errors import (
    InvalidLevelError, InvalidSettingError, InvalidTextError, InvalidVersionsError, shown)

LEVELS = "LMQH"

# What a symbol is made of.
Content = Union[str, bytes, bytearray, memoryview]


def type_error(name: str, wanted: str, it: object) -> TypeError:
    return TypeError(f"{name} is {wanted}, and not {type(it).__name__}")


def utf8(name: str, content: str) -> bytes:
    """A text in UTF-8."""
    if not isinstance(content, str):
        raise type_error(name, "a str", content)
    try:
        return str.encode(content)
    except UnicodeEncodeError as error:
        raise InvalidTextError(f"{name} has a lone surrogate at {error.start}") from error


def whole_bytes(name: str, content: Content) -> bytes:
    if not isinstance(content, (bytes, bytearray, memoryview)):
        raise type_error(name, "bytes", content)
    return bytes(content)


def data_of(content: Content) -> bytes:
    """The bytes of a text or of bytes."""
    if isinstance(content, str):
        return utf8("content", content)
    if not isinstance(content, (bytes, bytearray, memoryview)):
        raise type_error("content", "a str or bytes", content)
    return bytes(content)


def level_number(level: Optional[str], usual: str = "M") -> int:
    if level is None:
        level = usual
    if not isinstance(level, str):
        raise type_error("error", "one of L, M, Q and H", level)
    number = LEVELS.find(level.upper()) if len(level) == 1 else -1
    if number < 0:
        raise InvalidLevelError(f"the level is one of L, M, Q and H, and not {level!r}")
    return number


def version_number(name: str, number: int) -> int:
    """The number, which ctypes would else cut to 32 bits."""
    try:
        whole = operator.index(number)
    except TypeError:
        raise type_error(name, "a number from 1 to 40", number) from None
    if not 1 <= whole <= 40:
        raise InvalidVersionsError(f"{name} is 1 to 40, and not {shown(whole)}")
    return whole


def is_beyond_ascii(content: Content) -> bool:
    """Whether it is a text that has other characters than ASCII has."""
    return isinstance(content, str) and not content.isascii()


def setting(name: str, number: Optional[int]) -> int:
    """The number of a setting, which ctypes would else cut to 32 bits, and -1 for none."""
    if number is None:
        return -1
    try:
        whole = operator.index(number)
    except TypeError:
        raise TypeError(f"{name} is a number, and not {type(number).__name__}") from None
    if not 0 <= whole < 2 ** 31:
        raise InvalidSettingError(f"{name} is not {shown(whole)}", name)
    return whole


def hundredths(module_mm: Optional[float]) -> Optional[int]:
    """A width in millimetres as hundredths of one."""
    if module_mm is None:
        return None
    if not isinstance(module_mm, (int, float)):
        raise TypeError(f"module_mm is a number, and not {type(module_mm).__name__}")
    # NaN is within no bounds.
    if not 0.05 <= module_mm <= 10:
        raise InvalidSettingError(f"module_mm is 0.05 to 10, and not {shown(module_mm)}",
                                  "module_mm")
    return round(100 * module_mm)


def dots(at: Optional[Tuple[int, int]]) -> Tuple[Optional[int], Optional[int]]:
    """The two numbers of a place."""
    if at is None:
        return None, None
    if not isinstance(at, (tuple, list)):
        raise TypeError(f"at is two numbers, and not {type(at).__name__}")
    if len(at) != 2 or None in at:
        raise TypeError(f"at is two numbers, and not {len(at)} or None")
    return at[0], at[1]


def pixels(name: str, number: int, least: int, most: int) -> int:
    """A setting of rows that are made here, within the bounds of pictures."""
    whole = setting(name, number)
    if not least <= whole <= most:
        raise InvalidSettingError(f"{name} is {least} to {most}, and not {whole}", name)
    return whole

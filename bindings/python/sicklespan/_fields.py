"""The fields of the texts that `helpers` make: what they may have, and how they are written."""

import datetime
import decimal
import numbers
import re
from typing import Iterable, List, Optional, Union

from ._arguments import type_error, utf8
from ._errors import InvalidFieldError, shown

# One text, several, or none.
Texts = Union[str, Iterable[str], None]
Day = Union[str, datetime.date, None]
Number = Union[int, float, decimal.Decimal]

# `addr-spec` of RFC 5322 without comments and white space; each part may have other letters than
# those of ASCII (RFC 6532).
_ADDRESS = re.compile(r"""
    (?: "(?: [^"\\\x00-\x1f\x7f] | \\[^\x00-\x1f\x7f] )*"
      | [^\s\x00-\x1f\x7f@"(),:;<>.\[\]\\]+ (?: \.[^\s\x00-\x1f\x7f@"(),:;<>.\[\]\\]+ )* )
    @ (?: \[[^\s\x00-\x1f\x7f@\[\]\\]*\]
      | [^\s\x00-\x1f\x7f@"(),:;<>.\[\]\\]+ (?: \.[^\s\x00-\x1f\x7f@"(),:;<>.\[\]\\]+ )* )
    """, re.X)
# A date of ISO 8601 in its extended format, and one with a time.
_DATE = re.compile(r"[0-9]{4}-[0-9]{2}-[0-9]{2}")
_TIME = re.compile(_DATE.pattern + r"T[0-9]{2}:[0-9]{2}:[0-9]{2}(?:Z|[+-][0-9]{2}:[0-9]{2})?")


def wrong(name: str, wanted: str, value: object) -> InvalidFieldError:
    given = repr(value) if isinstance(value, str) else shown(value)
    return InvalidFieldError(f"{name} is {wanted}, and not {given}", name)


def at_most(name: str, most: int, value: str) -> str:
    """A text of a number of characters at most."""
    if len(value) > most:
        raise InvalidFieldError(f"{name} has at most {most} characters, and not {len(value)}", name)
    return value


def plain(name: str, value: str, lines: bool = False) -> str:
    """A text without control characters, but line breaks where `lines` says so."""
    utf8(name, value)
    for place, character in enumerate(value):
        if (character < " " or "\x7f" <= character < "\xa0") and not (
                lines and character in "\r\n"):
            raise InvalidFieldError(f"{name} has a control character at {place}", name)
    return str(value)


def optional(name: str, value: Optional[str], lines: bool = False) -> str:
    """A text that may be left out, which is then empty."""
    return "" if value is None else plain(name, value, lines)


def required(name: str, value: str) -> str:
    if not plain(name, value).strip():
        raise wrong(name, "a text", value)
    return str(value)


def several(name: str, value: Texts) -> List[str]:
    """The texts of a field that may be there more than once; empty ones are left out."""
    if value is None or isinstance(value, str):
        value = [value or ""]
    try:
        texts = list(value)
    except TypeError:
        raise type_error(name, "a str or several", value) from None
    for it in texts:
        if not isinstance(it, str):
            raise type_error(name, "a str or several", it)
    return [plain(name, it) for it in texts if it]


def addresses(name: str, value: Texts) -> List[str]:
    """E-mail addresses."""
    found = several(name, value)
    for it in found:
        if not _ADDRESS.fullmatch(it):
            raise wrong(name, "an e-mail address", it)
    return found


def links(name: str, value: Texts) -> List[str]:
    """URIs, with other letters than those of ASCII too."""
    found = several(name, value)
    for it in found:
        if re.search(r'[\s<>"]', it):
            raise wrong(name, "a URI", it)
    return found


def escaped(text: str, signs: str) -> str:
    """A text with a backslash before each of some signs."""
    return "".join("\\" + it if it in signs else it for it in text)


def number(name: str, value: Number, least: int, most: int) -> Union[float, decimal.Decimal]:
    """A finite number within bounds."""
    if not isinstance(value, (numbers.Real, decimal.Decimal)):
        raise type_error(name, "a number", value)
    try:
        within = least <= value <= most
    except ArithmeticError:
        within = False
    if not within:
        raise wrong(name, f"a number from {least} to {most}", value)
    return value if isinstance(value, decimal.Decimal) else float(value)


def decimals(value: Union[float, decimal.Decimal], count: int) -> str:
    """A number with so many decimals at most."""
    text = f"{value:.{count}f}".rstrip("0").rstrip(".")
    return "0" if text == "-0" else text


def _is_date(text: str) -> bool:
    try:
        if _DATE.fullmatch(text):
            datetime.date.fromisoformat(text)
            return True
        # Z is read since Python 3.11.
        datetime.datetime.fromisoformat(text.replace("Z", "+00:00"))
        return bool(_TIME.fullmatch(text))
    except ValueError:
        return False


def date(name: str, value: Day) -> str:
    """A date, or a date with a time, as ISO 8601 writes it; empty if there is none."""
    if isinstance(value, datetime.datetime):
        return value.isoformat(timespec="seconds").replace("+00:00", "Z")
    if isinstance(value, datetime.date):
        return value.isoformat()
    text = optional(name, value)
    if text and not _is_date(text):
        raise wrong(name, "a date, YYYY-MM-DD, with or without a time, THH:MM:SS", text)
    return text


def digits_of_date(name: str, value: Day) -> str:
    """A date in eight digits; empty if there is none."""
    if isinstance(value, datetime.date):
        return value.isoformat()[:10].replace("-", "")
    text = optional(name, value)
    if text and not (re.fullmatch(r"[0-9]{8}", text)
                     and _is_date(f"{text[:4]}-{text[4:6]}-{text[6:]}")):
        raise wrong(name, "a date, YYYYMMDD", text)
    return text

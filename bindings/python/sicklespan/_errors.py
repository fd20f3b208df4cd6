"""Why there is no symbol, or no picture: an exception for each thing that can be wrong.

An argument of a type that a call does not take is a TypeError that names the parameter.
"""

import ctypes
from typing import Dict, Optional, Type

from ._library import Fault, Options, Settings, library


class SicklespanError(ValueError):
    """The base of all errors here. Its text is that of the library."""


class DataTooLongError(SicklespanError):
    """The data fit no symbol that was asked for.

    `too_many` is the number of bytes that are too many: without the last ones, up to the next place
    where they may be cut, the data fit. It is None of the parts of a sequence, and of a link.
    """

    too_many: Optional[int] = None


class OutOfMemoryError(SicklespanError, MemoryError):
    """The library found no memory."""


class InvalidLevelError(SicklespanError):
    """There is no such level, or it is H and the symbol is a Micro symbol."""


class InvalidVersionsError(SicklespanError):
    """The versions are not 1 to 40, or the least is above the greatest."""


class InvalidSymbolError(SicklespanError):
    """Some modules are those of no symbol, or of another one than their shape says."""


class InvalidPartCountError(SicklespanError):
    """The parts of a sequence are not 2 to 16."""


class InvalidCutsError(SicklespanError):
    """A cut is below the one before it, or above the length of the message."""


class InvalidTextError(SicklespanError):
    """The text has a lone surrogate, which UTF-8 does not have."""


class UnwritableTextError(InvalidTextError):
    """No Micro symbol is read as the text.

    `place` is that of the first character that a Micro symbol cannot have after those before it,
    from 0.
    """

    place: Optional[int] = None


class ElementError(SicklespanError):
    """An element of a GS1 text has a fault.

    `element` is its number, from 1, `identifier` its identifier as a number, 1 of `(01)`, where it
    is known, `character` the one of its value that is at fault, from 1, if it is one of a value,
    and `reason` what is wrong, in a few words. Of unchecked elements only `element` and `reason`
    are known.
    """

    element: Optional[int] = None
    identifier: Optional[int] = None
    character: Optional[int] = None
    reason: Optional[str] = None


class InvalidCharacterError(ElementError):
    """A character is none that stands at this place of a GS1 element.

    Of bytes as readers find them, `place` is that of the byte, from 0, and the others are None; of
    a text in brackets it is None.
    """

    place: Optional[int] = None


class NoElementsError(SicklespanError):
    """The text does not begin with a bracketed identifier."""


class InvalidIdentifierError(ElementError):
    """An identifier is not two to four digits in brackets."""


class UnknownIdentifierError(ElementError):
    """An identifier is not assigned."""


class EmptyValueError(ElementError):
    """An element has no value, or no bracket before it."""


class ValueTooLongError(ElementError):
    """A value has more characters than it may have."""


class WrongLengthError(ElementError):
    """A value is too short, or has another length than one that is fixed."""


class WrongCheckDigitError(ElementError):
    """A check digit, or a pair of check characters, is wrong."""


class WrongValueError(ElementError):
    """A value is wrong in another way: no such date, say."""


class WrongDomainError(SicklespanError):
    """The domain of a link is no host name, with or without a port and a path."""


class NoKeyError(SicklespanError):
    """No element is the key of a link, as (01), (00) or (414) are."""


class SecondKeyError(ElementError):
    """An element is a key of links, and there is another after it."""


class WrongQualifierError(ElementError):
    """A qualifier of the key may not stand beside another one."""


class RepeatedElementError(ElementError):
    """The identifier of an element of a link stands once more after it."""


class MissingElementError(ElementError):
    """An element needs one that is not there."""


class ConflictingElementError(ElementError):
    """An element may not stand beside another one."""


class InvalidFormatError(SicklespanError):
    """There is no such format of pictures, or a stream is given and no format."""


class InvalidSettingError(SicklespanError):
    """A setting of a picture is out of its bounds, or the format does not have it.

    `setting` is its name.
    """

    setting: Optional[str] = None

    def __init__(self, text: str, setting: Optional[str] = None) -> None:
        super().__init__(text)
        self.setting = setting


class InvalidFieldError(SicklespanError):
    """A field of a text that `helpers` make has a wrong value.

    `field` is the name of the parameter.
    """

    field: Optional[str] = None

    def __init__(self, text: str, field: Optional[str] = None) -> None:
        super().__init__(text)
        self.field = field


class InvalidPatternError(SicklespanError):
    """The name of the files of a sequence has more than one `%d`."""


class MissingModuleError(SicklespanError, ImportError):
    """A call needs a module of others, as Pillow or NumPy, that is not installed.

    `name` is that of the module.
    """

    def __init__(self, text: str, name: Optional[str] = None) -> None:
        ImportError.__init__(self, text, name=name)


# By the numbers of sicklespan.h. The others are no fault of a caller of this package.
ERRORS: Dict[int, Type[SicklespanError]] = {
    1: DataTooLongError,
    2: OutOfMemoryError,
    3: InvalidLevelError,
    4: InvalidVersionsError,
    5: InvalidPartCountError,
    6: InvalidCutsError,
    10: InvalidTextError,
    11: InvalidVersionsError,
    12: InvalidCharacterError,
    13: NoElementsError,
    14: InvalidIdentifierError,
    15: UnknownIdentifierError,
    16: EmptyValueError,
    17: ValueTooLongError,
    18: WrongLengthError,
    19: WrongCheckDigitError,
    21: InvalidFormatError,
    22: InvalidSettingError,
    24: WrongValueError,
    25: WrongDomainError,
    26: NoKeyError,
    27: SecondKeyError,
    28: WrongQualifierError,
    29: RepeatedElementError,
    30: MissingElementError,
    31: ConflictingElementError,
    32: UnwritableTextError,
}


# The numbers of `sicklespan_content`.
(BYTES, TEXT, ELEMENTS, GS1, MICRO, _AUTO, GS1_UNCHECKED, SMALLEST_TEXT, MICRO_TEXT,
 BYTES_WITHOUT_KANJI) = range(10)
# The names of settings that have another one in the library.
_NAMES = {"quiet": "border", "at_x": "at", "at_y": "at"}


def _text(status: int) -> str:
    return str(library.sicklespan_status_text(status).decode())


def shown(number: object) -> str:
    """A number in a message; Python writes none of very many digits."""
    try:
        return str(number)
    except ValueError:
        return "a number of so many digits"


def check(status: int) -> None:
    """Raises the error of a status."""
    if status != 0:
        raise ERRORS.get(status, SicklespanError)(_text(status))


def _element_error(status: int, fault: Fault) -> SicklespanError:
    """The error of a status, with the fault that comes with it."""
    error = ERRORS.get(status, SicklespanError)
    if fault.element == 0:
        return error(_text(status))
    known = f" ({fault.identifier:02})" if fault.identifier >= 0 else ""
    within = f", character {fault.character}" if fault.character else ""
    reason = fault.reason.decode()
    found = error(f"element {fault.element}{known}{within}: {reason}")
    assert isinstance(found, ElementError)
    found.element, found.reason = int(fault.element), reason
    found.identifier = int(fault.identifier) if known else None
    found.character = int(fault.character) if within else None
    return found


def check_link(status: int, text: bytes, domain: bytes) -> None:
    """Raises the error of a status of a link."""
    if not (12 <= status <= 19 or 24 <= status <= 31):
        return check(status)
    fault = Fault()
    raise _element_error(library.sicklespan_link_fault(
        text, len(text), domain, len(domain), ctypes.byref(fault)), fault)


def check_data(status: int, content: int, data: bytes, options: Options) -> None:
    """Raises the error of a status of a call with data, and says of how many of them it is."""
    if status not in (1, 24, 30, 31, 32) and not 12 <= status <= 19:
        return check(status)
    fault = Fault()
    if content == GS1 and status != 1:
        raise _element_error(
            library.sicklespan_gs1_fault(data, len(data), ctypes.byref(fault)), fault)
    good, text = ctypes.c_size_t(), _text(status)
    check_again = library.sicklespan_check(content, data, len(data), ctypes.byref(options),
                                           ctypes.byref(good))
    if check_again != status:
        # The status of the data is the same, unless there is no memory now.
        return check(check_again)
    if status == 1:
        count = len(data) - good.value
        too_long = DataTooLongError(f"{text}, by {count} byte{'s' * (count > 1)}")
        too_long.too_many = count
        raise too_long
    if status == 32:
        place = len(data[:good.value].decode())
        unwritable = UnwritableTextError(f"{text}, at character {place}")
        unwritable.place = place
        raise unwritable
    if status == 12 and content == ELEMENTS:
        error = InvalidCharacterError(f"{text}, at byte {good.value}")
        error.place = good.value
        raise error
    if status != 13:
        fault = Fault(data.count(b"(", 0, good.value) + 1, 0, -1, text.encode())
    raise _element_error(status, fault)


def check_picture(status: int, kind: int, settings: Settings) -> None:
    """Raises the error of a status of a picture, and names the setting that is wrong."""
    name = None
    if ERRORS.get(status) is InvalidSettingError:
        name = library.sicklespan_wrong_setting(kind, ctypes.byref(settings))
    if name is None:
        return check(status)
    setting = _NAMES.get(name.decode(), name.decode())
    raise InvalidSettingError(f"{_text(status)}: {setting}", setting)

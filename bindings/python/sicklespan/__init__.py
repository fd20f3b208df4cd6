"""QR and Micro QR symbols by a library that is proved.

    >>> import sicklespan
    >>> symbol = sicklespan.make("hello")
    >>> symbol.version, symbol.level, symbol.mask
    (1, 'H', 5)
    >>> symbol.save("hello.svg")

The functions return a `Symbol` or raise an error below `SicklespanError`; an argument of a type
that a function does not take is a TypeError. They may be called from several threads at once, and
need a processor with x86-64-v2, without which the import is an ImportError. The module
`sicklespan.helpers`, which is imported by itself, has those for networks, contacts, places, e-mail
and payments.
"""

from ._errors import (
    ConflictingElementError, DataTooLongError, ElementError, EmptyValueError,
    InvalidCharacterError, InvalidCutsError, InvalidFieldError, InvalidFormatError,
    InvalidIdentifierError, InvalidLevelError, InvalidPartCountError, InvalidPatternError,
    InvalidSettingError, InvalidSymbolError, InvalidTextError, InvalidVersionsError,
    MissingElementError, MissingModuleError, NoElementsError, NoKeyError, OutOfMemoryError,
    RepeatedElementError, SecondKeyError, SicklespanError, UnknownIdentifierError,
    UnwritableTextError, ValueTooLongError, WrongCheckDigitError, WrongDomainError,
    WrongLengthError, WrongQualifierError, WrongValueError)
from ._library import __version__
from ._make import (
    elements, gs1, gs1_unchecked, link, link_text, make, make_micro, make_qr, micro, text)
from ._sequence import SymbolSequence, make_sequence, sequence
from ._symbol import Symbol

__all__ = [
    "ConflictingElementError", "DataTooLongError", "ElementError", "EmptyValueError",
    "InvalidCharacterError", "InvalidCutsError", "InvalidFieldError", "InvalidFormatError",
    "InvalidIdentifierError", "InvalidLevelError", "InvalidPartCountError", "InvalidPatternError",
    "InvalidSettingError", "InvalidSymbolError", "InvalidTextError", "InvalidVersionsError",
    "MissingElementError", "MissingModuleError", "NoElementsError", "NoKeyError",
    "OutOfMemoryError", "RepeatedElementError", "SecondKeyError", "SicklespanError", "Symbol",
    "SymbolSequence", "UnknownIdentifierError", "UnwritableTextError", "ValueTooLongError",
    "WrongCheckDigitError", "WrongDomainError", "WrongLengthError", "WrongQualifierError",
    "WrongValueError", "__version__", "elements", "gs1", "gs1_unchecked", "link", "link_text",
    "make", "make_micro", "make_qr", "make_sequence", "micro", "sequence", "text"]

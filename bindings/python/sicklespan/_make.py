"""The functions that make symbols."""

import ctypes
from typing import Optional, Union

from ._arguments import (
    LEVELS, Content, data_of, is_beyond_ascii, level_number, utf8, version_number, whole_bytes)
from ._errors import (
    BYTES, BYTES_WITHOUT_KANJI, ELEMENTS, GS1, GS1_UNCHECKED, MICRO, MICRO_TEXT, SMALLEST_TEXT,
    TEXT, DataTooLongError, InvalidLevelError, InvalidTextError, InvalidVersionsError,
    SicklespanError, check_data, check_link)
from ._library import Options, Shape, library
from ._symbol import Symbol

_SIZE = 177 * 177
_SHORT_BUFFER = 8

_CALLS = {BYTES: library.sicklespan_bytes,
          BYTES_WITHOUT_KANJI: library.sicklespan_bytes_without_kanji,
          TEXT: library.sicklespan_text,
          SMALLEST_TEXT: library.sicklespan_smallest_text,
          ELEMENTS: library.sicklespan_elements, GS1: library.sicklespan_gs1,
          GS1_UNCHECKED: library.sicklespan_gs1_unchecked}
_MICRO_CALLS = {MICRO: library.sicklespan_micro, MICRO_TEXT: library.sicklespan_micro_text}


def _drawn(content: int, data: bytes, options: Options) -> Symbol:
    """What a call of the library draws."""
    modules, shape = ctypes.create_string_buffer(_SIZE), Shape()
    rest = (modules, _SIZE, ctypes.byref(shape))
    if content in _MICRO_CALLS:
        status = _MICRO_CALLS[content](data, len(data), options.level, *rest)
    else:
        status = _CALLS[content](data, len(data), ctypes.byref(options), *rest)
    check_data(status, content, data, options)
    return Symbol(ctypes.string_at(modules, shape.width ** 2), shape)


def _options(error: Optional[str], version: Optional[int], min_version: int, max_version: int,
             boost_error: bool) -> Options:
    least = version_number("min_version", min_version)
    most = version_number("max_version", max_version)
    if version is not None:
        wanted = version_number("version", version)
        if not least <= wanted <= most:
            raise InvalidVersionsError(f"version {wanted} is not from {least} to {most}")
        least = most = wanted
    return Options(level_number(error), least, most, bool(boost_error))


def make(content: Content, error: Optional[str] = None, version: Optional[int] = None, *,
         min_version: int = 1, max_version: int = 40, boost_error: bool = True,
         micro: Optional[bool] = False, kanji: bool = True) -> Symbol:
    """The best symbol of a text, of a str, or of bytes: those are for data that are no text.

    `error` is the level, L, M, Q or H, and M if it is None. With `boost_error` it is the least
    level: the symbol has the greatest one at which it is no larger. It is the smallest symbol in
    the versions from `min_version` to `max_version`, or has exactly `version`. With `micro` None it
    is a Micro symbol if one can be it: if no versions are asked for, and one that is read as the
    content fits at the level. With `micro` True it is one, or an error.

    A text of ASCII is encoded as it is. Any other text is written in the modes, and after the ECI
    designators of ISO/IEC 8859 (but parts 10 and 14), Shift JIS and UTF-8, that take the fewest
    bits: no symbol that is read as the text is smaller. `text` writes UTF-8. The symbol of bytes
    does not say which characters they are, and pairs of them go in the Kanji mode: where they are
    UTF-8 beyond ASCII, as `str.encode` returns, readers may show other characters. With `kanji`
    False none of them do: it is for bytes, and for no Micro symbol, so that `micro` None makes none
    then.

        >>> sicklespan.make("hello"), sicklespan.make("hello", "L", boost_error=False).level
        (<sicklespan.Symbol 1-H, mask 5>, 'L')
        >>> sicklespan.make("12345", "L", micro=None).designator
        'M1-L'
        >>> sicklespan.make("x" * 20, "L", max_version=1)
        Traceback (most recent call last):
        sicklespan._errors.DataTooLongError: the data are too long, by 3 bytes
    """
    options = _options(error, version, min_version, max_version, boost_error)
    if not kanji:
        if micro:
            raise SicklespanError("a Micro symbol has no form without the Kanji mode")
        return _drawn(BYTES_WITHOUT_KANJI, whole_bytes("content", content), options)
    is_any = version is None and (min_version, max_version) == (1, 40)
    if micro and not is_any:
        raise InvalidVersionsError("a Micro symbol has no version from 1 to 40")
    if micro is not False and is_any:
        try:
            return make_micro(content, error, boost_error=boost_error)
        except (DataTooLongError, InvalidLevelError, InvalidTextError):
            if micro:
                raise
    data = data_of(content)
    return _drawn(SMALLEST_TEXT if is_beyond_ascii(content) else BYTES, data, options)


def text(content: str, error: Optional[str] = None, version: Optional[int] = None, *,
         min_version: int = 1, max_version: int = 40, boost_error: bool = True) -> Symbol:
    """The best symbol of a text in UTF-8, which the symbol says (ECI 26).

    It is for readers that know no other designator. This takes 12 bits: ASCII is read alike without
    it, by `make`.

        >>> sicklespan.text("\u5e02\u5317\u524d\u5009\u6771", "M").version
        2
        >>> sicklespan.make("\u5e02\u5317\u524d\u5009\u6771", "M").version
        1
    """
    options = _options(error, version, min_version, max_version, boost_error)
    return _drawn(TEXT, utf8("content", content), options)


def make_qr(content: Content, error: Optional[str] = None, version: Optional[int] = None, *,
            boost_error: bool = True) -> Symbol:
    """What `make` returns, which is no Micro symbol.

        >>> sicklespan.make_qr("hello", version=2).designator
        '2-H'
    """
    return make(content, error, version, boost_error=boost_error)


def gs1(content: str, error: Optional[str] = None, version: Optional[int] = None, *,
        min_version: int = 1, max_version: int = 40, boost_error: bool = True) -> Symbol:
    """The best symbol of GS1 elements as people write them: `(01)09506000134352(10)ABC123`.

    Each element is tested by the table of identifiers of the GS1 General Specifications, release 25
    (January 2025): its identifier is assigned, and its value has the length, the characters, the
    check digit, the date, the country and what else the table asks for. The elements stand together:
    beside each are those that it needs, as a batch (10) needs a trade item (01), and none that it
    excludes; and an identifier that stands twice has one value.

        >>> sicklespan.gs1("(01)09506000134352(10)ABC123").version
        1
        >>> sicklespan.gs1("(01)09506000134353")
        Traceback (most recent call last):
        sicklespan._errors.WrongCheckDigitError: element 1 (01), character 14: wrong check digit
    """
    options = _options(error, version, min_version, max_version, boost_error)
    return _drawn(GS1, utf8("content", content), options)


def gs1_unchecked(content: str, error: Optional[str] = None, version: Optional[int] = None, *,
                  min_version: int = 1, max_version: int = 40, boost_error: bool = True) -> Symbol:
    """What `gs1` returns, for identifiers that are newer than its table.

    Elements are tested for what a reader needs alone. That is the number of an identifier's digits
    by its first two, the characters, the predefined lengths (identifiers that begin with 00 to 04,
    11 to 20, 31 to 36 or 41), and the check digits of 00, 01, 02 and 410 to 417. What else GS1 says
    of a value, its greatest length, say, or a date, is not tested, nor which elements stand
    together.

        >>> sicklespan.gs1_unchecked("(4399)x").version
        1
    """
    options = _options(error, version, min_version, max_version, boost_error)
    return _drawn(GS1_UNCHECKED, utf8("content", content), options)


def link(content: str, domain: str, error: Optional[str] = None, version: Optional[int] = None, *,
         min_version: int = 1, max_version: int = 40, boost_error: bool = True) -> Symbol:
    """The best symbol of the GS1 Digital Link of elements, which `link_text` returns.

        >>> symbol = sicklespan.link("(01)09506000134352", "id.gs1.org")
        >>> symbol == sicklespan.make("https://id.gs1.org/01/09506000134352")
        True
    """
    options = _options(error, version, min_version, max_version, boost_error)
    text, host = utf8("content", content), utf8("domain", domain)
    modules, shape = ctypes.create_string_buffer(_SIZE), Shape()
    status = library.sicklespan_link(text, len(text), host, len(host), ctypes.byref(options),
                                     modules, _SIZE, ctypes.byref(shape))
    check_link(status, text, host)
    return Symbol(ctypes.string_at(modules, shape.width ** 2), shape)


def link_text(content: str, domain: str) -> str:
    """The GS1 Digital Link of elements as people write them, at a domain.

    The key comes first, then its qualifiers, and the other elements as a query. The elements are
    tested as `gs1` does it. The domain is a host name of letters, digits, `-` and `.`, with a port
    or without, and with the path at which the link begins or without: `example.com/shop`.

        >>> sicklespan.link_text("(17)261231(10)ABC(01)09506000134352", "id.gs1.org")
        'https://id.gs1.org/01/09506000134352/10/ABC?17=261231'
    """
    text, host = utf8("content", content), utf8("domain", domain)
    room, size, status = 1 << 10, ctypes.c_size_t(), _SHORT_BUFFER
    while status == _SHORT_BUFFER:
        room = max(room, size.value)
        out = ctypes.create_string_buffer(room)
        status = library.sicklespan_link_text(text, len(text), host, len(host), out, room,
                                              ctypes.byref(size))
    check_link(status, text, host)
    return ctypes.string_at(out, size.value).decode()


def elements(content: Union[bytes, bytearray, memoryview], error: Optional[str] = None,
             version: Optional[int] = None, *, min_version: int = 1, max_version: int = 40,
             boost_error: bool = True) -> Symbol:
    """The best symbol of GS1 elements as readers find them, with the byte 1D (hex) between two.

    Tested are the characters and the separators, and not the identifiers and the values.

        >>> symbol = sicklespan.elements(b"10ABC\\x1d0109506000134352")
        >>> symbol == sicklespan.gs1("(10)ABC(01)09506000134352")
        True
    """
    options = _options(error, version, min_version, max_version, boost_error)
    return _drawn(ELEMENTS, whole_bytes("content", content), options)


def micro(content: Content, error: Optional[str] = None) -> Symbol:
    """The best Micro symbol of a text or of bytes, in M1 to M4, at level L, M or Q.

    The level is L if it is None. No Micro symbol says in which character set it is. The characters
    of a text are those of ASCII alone, or those of the Kanji mode and of ASCII but `\\` and `~`:
    another text is an `UnwritableTextError`. Of bytes that are not ASCII readers may show other
    characters.

        >>> sicklespan.micro("12345")
        <sicklespan.Symbol M1-L, mask 2>
    """
    data = data_of(content)
    kind = MICRO_TEXT if is_beyond_ascii(content) else MICRO
    return _drawn(kind, data, Options(level_number(error, "L"), 1, 40, False))


def make_micro(content: Content, error: Optional[str] = None, *,
               boost_error: bool = True) -> Symbol:
    """What `micro` returns, with `boost_error` at the greatest level at which it is no larger.

        >>> sicklespan.make_micro("123456").designator, sicklespan.micro("123456").designator
        ('M2-M', 'M2-L')
    """
    symbol = micro(content, error)
    for level in LEVELS[LEVELS.index(symbol.level) + 1:-1] if boost_error else "":
        try:
            stronger = micro(content, level)
        except DataTooLongError:
            break
        if stronger.width > symbol.width:
            break
        symbol = stronger
    return symbol

"""A content in several symbols (Structured Append): where it is cut, and how they are written."""

import ctypes
import operator
import os
import re
from typing import Any, Callable, List, Optional, Sequence, Tuple

from ._arguments import (
    Content, data_of, is_beyond_ascii, level_number, type_error, version_number)
from ._errors import (
    InvalidCutsError, InvalidFormatError, InvalidPartCountError, InvalidPatternError, check, shown)
from ._library import Shape, library
from ._make import make
from ._output import Out, kind_of
from ._symbol import Symbol

# Kinds of which several may follow each other in one stream.
_LISTED = ("txt", "terminal", "pbm", "escpos", "zpl")


def _names(path: str, count: int) -> List[str]:
    """The name of the file of each symbol."""
    places = re.findall(r"%(?:0[1-9])?d", path)
    if len(places) > 1:
        raise InvalidPatternError(f"out has one %d or %0Nd, and not {len(places)}: {path}")
    if places:
        before, after = path.split(places[0])
        return [f"{before}{places[0] % number}{after}" for number in range(1, count + 1)]
    if count == 1:
        return [path]
    name, ending = os.path.splitext(path)
    return [f"{name}-{count:02}-{number:02}{ending}" for number in range(1, count + 1)]


class SymbolSequence(List[Symbol]):
    """The symbols of `sequence` and `make_sequence`, in order: a list that is written as a whole.

        >>> symbols = sicklespan.sequence("one and two", [4, 8])
        >>> len(symbols), symbols == list(symbols), symbols[0].designator
        (3, True, '1-M')
    """

    __slots__ = ()

    def save(self, out: Out, kind: Optional[str] = None, *, scale: Optional[int] = None,
             border: Optional[int] = None, module_mm: Optional[float] = None,
             dpi: Optional[int] = None, inverted: bool = False,
             at: Optional[Tuple[int, int]] = None) -> None:
        """Writes each symbol as `save` of a symbol does, to a file of its own, or all to a stream.

        The name has one `%d`, or `%0Nd` for N digits at least, in whose place the number of the
        symbol stands, from 1; if it has none, it becomes `part-03-01.png` and so on before the
        ending, and that of a single symbol stays. To a stream several symbols are written one after
        the other as txt, terminal, pbm, escpos or zpl; of another kind it takes one.

            >>> import os
            >>> symbols = sicklespan.sequence("one and two", [4, 8])
            >>> symbols.save("part-%d.png")
            >>> sorted(os.listdir())
            ['part-1.png', 'part-2.png', 'part-3.png']
            >>> symbols.save("part.svg", border=2)
            >>> os.path.exists("part-03-01.svg")
            True
        """
        settings: Any = {"scale": scale, "border": border, "module_mm": module_mm, "dpi": dpi,
                         "inverted": inverted, "at": at}
        if isinstance(out, (str, bytes, os.PathLike)):
            path = os.fsdecode(out)
            kind = kind_of(out, path, kind)
            for symbol, name in zip(self, _names(path, len(self))):
                symbol.save(name, kind, **settings)
            return
        kind = kind_of(out, None, kind)
        if kind not in _LISTED and len(self) != 1:
            kinds = ", ".join(_LISTED)
            raise InvalidFormatError(f"a stream takes several pictures of {kinds}, and not {kind}")
        for symbol in self:
            symbol.save(out, kind, **settings)

    def terminal(self, out: Optional[Out] = None, border: Optional[int] = None, *,
                 inverted: bool = False) -> None:
        """Prints the symbols one below the other, or writes them so to a file or a stream.

        Each is written as `terminal` of a symbol does it.

            >>> sicklespan.sequence("one and two", [4, 8]).terminal("parts.txt", border=1)
            >>> with open("parts.txt", encoding="utf-8") as it:
            ...     print([len(line.rstrip("\\n")) for line in it] == 3 * 12 * [23])
            True
        """
        if isinstance(out, (str, bytes, os.PathLike)):
            with open(out, "wb") as it:
                return self.terminal(it, border, inverted=inverted)
        for symbol in self:
            symbol.terminal(out, border, inverted=inverted)


def _best_cuts(call: Callable[..., int], data: bytes, level: int, limit: int) -> List[int]:
    found, count = (ctypes.c_size_t * 15)(), ctypes.c_size_t()
    check(call(data, len(data), level, limit, found, 15, ctypes.byref(count)))
    return found[:count.value]


def _places(cuts: Sequence[int], length: int) -> List[int]:
    """The cuts, which ctypes would else cut to 64 bits."""
    try:
        places = [operator.index(cut) for cut in cuts]
    except TypeError:
        raise type_error("cuts", "a sequence of numbers", cuts) from None
    for cut in places:
        if not 0 <= cut <= length:
            raise InvalidCutsError(f"a cut is 0 to {length}, and not {shown(cut)}")
    return places


def sequence(content: Content, cuts: Optional[Sequence[int]] = None, error: Optional[str] = None,
             *, max_version: int = 40) -> SymbolSequence:
    """The symbols that carry a message together (Structured Append), in versions up to a greatest.

    Part i ends before byte `cuts[i]`, and the last one at the end of the message. Where no cuts are
    given, the symbols are as few as can be; if one after a header is enough, it is returned without
    the header, as `make` returns it, and is no part of a sequence.

    Text that is not ASCII is encoded in UTF-8, and each symbol says so: the symbols are the fewest
    of those, and `make` may fit a text into one that is in several here. Its cuts count the bytes
    of its UTF-8, and each is between two characters.

        >>> [it.version for it in sicklespan.sequence("one and two", error="H", max_version=1)]
        [1, 1, 1]
        >>> len(sicklespan.sequence("one and two", [4, 8]))
        3
        >>> len(sicklespan.sequence("one and two"))
        1
    """
    is_text, data = is_beyond_ascii(content), data_of(content)
    level, limit = level_number(error), version_number("max_version", max_version)
    if cuts is None:
        find = library.sicklespan_text_cuts if is_text else library.sicklespan_cuts
        cuts = _best_cuts(find, data, level, limit)
        if not cuts:
            return SymbolSequence([make(content, error, max_version=limit, boost_error=False)])
    ends = _places(cuts, len(data))
    places, shapes = (ctypes.c_size_t * len(ends))(*ends), (Shape * (len(ends) + 1))()
    room = min(len(shapes), 16) * (17 + 4 * limit) ** 2
    modules = ctypes.create_string_buffer(room)
    draw = library.sicklespan_text_sequence if is_text else library.sicklespan_sequence
    check(draw(data, len(data), places, len(ends), level, limit, modules, room, shapes))
    symbols, start = SymbolSequence(), 0
    for shape in shapes:
        size = shape.width ** 2
        symbols.append(Symbol(modules.raw[start:start + size], shape))
        start += size
    return symbols


def _even_cuts(content: Content, count: int) -> List[int]:
    """The bytes at which the content is cut into parts that differ by one character at most."""
    places = [i * len(content) // count for i in range(1, count)]
    if not isinstance(content, str):
        return places
    return [len(content[:place].encode()) for place in places]


def make_sequence(content: Content, error: Optional[str] = None, *,
                  symbol_count: Optional[int] = None, max_version: int = 40) -> SymbolSequence:
    """What `sequence` returns, in this number of symbols, whose parts are about equally long.

        >>> symbols = sicklespan.make_sequence("abcdefghij", symbol_count=4)
        >>> symbols == sicklespan.sequence("abcdefghij", [2, 5, 7])
        True
    """
    data = data_of(content)
    if symbol_count is None:
        return sequence(content, None, error, max_version=max_version)
    try:
        count = operator.index(symbol_count)
    except TypeError:
        raise type_error("symbol_count", "a number from 2 to 16", symbol_count) from None
    if not 2 <= count <= 16:
        raise InvalidPartCountError(f"symbol_count is 2 to 16, and not {shown(count)}")
    whole: Content = content if isinstance(content, str) else data
    return sequence(content, _even_cuts(whole, count), error, max_version=max_version)

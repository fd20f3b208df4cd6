"""A symbol, and the forms in which it is written."""

import base64
import ctypes
import os
import pathlib
import sys
import tempfile
import threading
import webbrowser
from typing import Any, Iterator, Optional, Tuple, Union
from urllib.parse import quote

from ._arguments import LEVELS, dots, hundredths, pixels, setting
from ._errors import InvalidFormatError, InvalidSettingError, InvalidSymbolError, check_picture
from ._library import Settings, Shape, library
from ._output import FORMATS, Out, colored, is_terminal, kind_of, write
from ._views import array_of, image_of

_SHORT_BUFFER = 8


def _is_symbol(modules: bytes, shape: Shape) -> bool:
    """Whether a shape is that of a symbol with these modules."""
    width, micro = shape.width, shape.width < 21
    return bool(
        len(modules) == width ** 2 and not modules.translate(None, b"\0\1")
        and 0 < shape.version == library.sicklespan_version_of_width(width)
        and bool(shape.micro) == micro and 0 <= shape.mask < (4 if micro else 8)
        and 0 <= shape.level < (3 if micro else 4))


class Symbol:
    """A QR or Micro QR symbol, which does not change. The functions of the package make them.

    `str` gives text in half blocks, two rows a line. Where standard output is a terminal, its lines
    are black on white by escape sequences, so that `print` shows what is read on a dark terminal
    too. A notebook shows the picture, and `numpy.array` makes an array of the modules.

        >>> symbol = sicklespan.make("hello")
        >>> symbol
        <sicklespan.Symbol 1-H, mask 5>
        >>> symbol == sicklespan.make(b"hello"), len({symbol, sicklespan.make("hello")})
        (True, 1)
    """

    __slots__ = ("_modules", "_width", "_version", "_mask", "_level", "_micro")

    def __init__(self, modules: bytes, shape: Shape) -> None:
        if not isinstance(modules, bytes):
            raise TypeError(f"modules is bytes, and not {type(modules).__name__}")
        if not isinstance(shape, Shape):
            raise TypeError(f"shape is a Shape, and not {type(shape).__name__}")
        modules = bytes(modules)
        if not _is_symbol(modules, shape):
            raise InvalidSymbolError(
                f"{len(modules)} modules, which are not those of a symbol {shape.width} wide")
        self._modules, self._width = modules, int(shape.width)
        self._version, self._mask = int(shape.version), int(shape.mask)
        self._level, self._micro = LEVELS[shape.level], bool(shape.micro)

    @property
    def version(self) -> Union[int, str]:
        """1 to 40, or M1 to M4.

            >>> sicklespan.make("hello").version, sicklespan.micro("12345").version
            (1, 'M1')
        """
        return f"M{self._version}" if self._micro else self._version

    @property
    def level(self) -> str:
        """L, M, Q or H.

            >>> sicklespan.make("hello", "L", boost_error=False).level
            'L'
        """
        return self._level

    @property
    def error(self) -> str:
        """The level.

            >>> sicklespan.make("hello", "L", boost_error=False).error
            'L'
        """
        return self._level

    @property
    def mask(self) -> int:
        """The number of the mask pattern, 0 to 7, or 0 to 3 in a Micro symbol.

            >>> sicklespan.micro("12345").mask
            2
        """
        return self._mask

    @property
    def is_micro(self) -> bool:
        """Whether it is a Micro symbol.

            >>> sicklespan.make("hello").is_micro, sicklespan.make("12345", micro=None).is_micro
            (False, True)
        """
        return self._micro

    @property
    def designator(self) -> str:
        """The version and the level.

            >>> sicklespan.make("hello").designator
            '1-H'
        """
        return f"{self.version}-{self._level}"

    @property
    def width(self) -> int:
        """The number of modules on a side.

            >>> sicklespan.make("hello").width
            21
        """
        return self._width

    @property
    def default_border_size(self) -> int:
        """The width of the quiet zone in modules: 4, or 2 around a Micro symbol.

            >>> sicklespan.make("1").default_border_size, sicklespan.micro("1").default_border_size
            (4, 2)
        """
        return 2 if self._micro else 4

    @property
    def matrix(self) -> Tuple[bytearray, ...]:
        """The rows of modules from the top, a byte each: 1 is dark. Each time they are new ones.

            >>> rows = sicklespan.make("hello").matrix
            >>> len(rows), list(rows[0][:8])
            (21, [1, 1, 1, 1, 1, 1, 1, 0])
        """
        return tuple(bytearray(self._modules[y:y + self._width])
                     for y in range(0, len(self._modules), self._width))

    def symbol_size(self, scale: int = 1, border: Optional[int] = None) -> Tuple[int, int]:
        """The width and the height of a picture.

            >>> sicklespan.make("hello").symbol_size(scale=2, border=1)
            (46, 46)
        """
        side = pixels("scale", scale, 1, 64) * (self._width + 2 * self._few(border))
        return side, side

    def matrix_iter(self, scale: int = 1, border: Optional[int] = None) -> Iterator[bytearray]:
        """The rows of a picture with its quiet zone, a byte for each pixel: 1 is dark.

            >>> rows = list(sicklespan.make("hello").matrix_iter(border=1))
            >>> len(rows), list(rows[1][:9])
            (23, [0, 1, 1, 1, 1, 1, 1, 1, 0])
        """
        return self._rows(pixels("scale", scale, 1, 64), self._few(border))

    def _rows(self, scale: int, zone: int) -> Iterator[bytearray]:
        side = scale * (self._width + 2 * zone)
        yield from (bytearray(side) for _ in range(scale * zone))
        for row in self.matrix:
            inner = b"".join(bytes([module]) * scale for module in row)
            line = bytes(scale * zone) + inner + bytes(scale * zone)
            yield from (bytearray(line) for _ in range(scale))
        yield from (bytearray(side) for _ in range(scale * zone))

    def terminal(self, out: Optional[Out] = None, border: Optional[int] = None, *,
                 inverted: bool = False) -> None:
        """Prints it, or writes it to a file or a stream: two rows a line, in half blocks.

        On a terminal the lines are black on white by escape sequences; elsewhere dark modules are
        in the colour of the text. With `inverted` the light ones are, and nothing is coloured: for
        text that is shown light on dark.

            >>> sicklespan.micro("1").terminal("symbol.txt", border=0)
            >>> with open("symbol.txt", encoding="utf-8") as it:
            ...     print(it.read(7))
            \u2588\u2580\u2580\u2580\u2580\u2580\u2588
        """
        self.save(sys.stdout if out is None else out, "terminal", border=border, inverted=inverted)

    def show(self, delete_after: Optional[float] = 20, scale: int = 10,
             border: Optional[int] = None) -> None:
        """Shows a PNG file, which is removed after some seconds, by what the system has for it.

            >>> sicklespan.make("hello").show(delete_after=1)
        """
        if delete_after is not None and not isinstance(delete_after, (int, float)):
            raise TypeError(f"delete_after is a number, and not {type(delete_after).__name__}")
        with tempfile.NamedTemporaryFile("wb", suffix=".png", delete=False) as it:
            it.write(self.png(scale=scale, border=border))
        webbrowser.open(pathlib.Path(it.name).as_uri())
        if delete_after is not None:
            timer = threading.Timer(delete_after, os.unlink, (it.name,))
            timer.start()

    def _zone(self, border: Optional[int]) -> int:
        return self.default_border_size if border is None else setting("border", border)

    def _few(self, border: Optional[int]) -> int:
        return pixels("border", self._zone(border), 0, 16)

    def picture(self, kind: str, *, scale: Optional[int] = None, border: Optional[int] = None,
                module_mm: Optional[float] = None, dpi: Optional[int] = None,
                inverted: bool = False, at: Optional[Tuple[int, int]] = None) -> bytes:
        """A picture, which is svg, png, pbm, eps, pdf, escpos, zpl or terminal.

        A module has `scale` pixels (8 by default, and 1 of text), and the quiet zone `border`
        modules (4 by default, and 2 around a Micro symbol). A module of svg, png, eps and pdf is
        `module_mm` millimetres wide, to the nearest hundredth; or a png has `dpi` pixels in an
        inch. With `inverted` the light modules of text are filled, for a dark screen. The upper
        left corner of a zpl label is `at` these dots.

            >>> sicklespan.make("hello").picture("pbm", scale=2)[:9]
            b'P4\\n58 58\\n'
        """
        if not isinstance(kind, str):
            raise TypeError(f"kind is a str, and not {type(kind).__name__}")
        if kind not in FORMATS:
            raise InvalidFormatError(f"a picture is {', '.join(FORMATS)}, and not {kind!r}")
        if len(self._modules) != self._width ** 2:
            raise InvalidSymbolError("the symbol was changed")
        x, y = dots(at)
        asked = Settings(
            setting("scale", scale), self._zone(border),
            setting("module_mm", hundredths(module_mm)), setting("dpi", dpi), bool(inverted),
            setting("at", x), setting("at", y))
        room, length, status = 1 << 14, ctypes.c_size_t(), _SHORT_BUFFER
        while status == _SHORT_BUFFER:
            room = max(room, length.value)
            out = ctypes.create_string_buffer(room)
            status = library.sicklespan_picture(
                self._modules, self._width, FORMATS[kind], ctypes.byref(asked), out, room,
                ctypes.byref(length))
        check_picture(status, FORMATS[kind], asked)
        return ctypes.string_at(out, length.value)

    def svg(self, *, scale: Optional[int] = None, border: Optional[int] = None,
            module_mm: Optional[float] = None) -> str:
        """The picture as SVG.

            >>> 'width="58"' in sicklespan.make("hello").svg(scale=2)
            True
        """
        return self.picture("svg", scale=scale, border=border, module_mm=module_mm).decode()

    def svg_inline(self, *, scale: Optional[int] = None, border: Optional[int] = None,
                   module_mm: Optional[float] = None) -> str:
        """The picture as SVG within a page of HTML, without the name space.

            >>> sicklespan.make("hello").svg_inline(scale=2)[:16]
            '<svg width="58" '
        """
        text = self.svg(scale=scale, border=border, module_mm=module_mm)
        return text.replace(' xmlns="http://www.w3.org/2000/svg"', "", 1).rstrip("\n")

    def png(self, *, scale: Optional[int] = None, border: Optional[int] = None,
            module_mm: Optional[float] = None, dpi: Optional[int] = None) -> bytes:
        """The picture as a PNG file.

            >>> sicklespan.make("hello").png(dpi=300)[:8]
            b'\\x89PNG\\r\\n\\x1a\\n'
        """
        return self.picture("png", scale=scale, border=border, module_mm=module_mm, dpi=dpi)

    def svg_data_uri(self, *, scale: Optional[int] = None, border: Optional[int] = None) -> str:
        """The picture as SVG, in an address for the `src` of an image.

            >>> sicklespan.make("hello").svg_data_uri()[:38]
            'data:image/svg+xml;charset=utf-8,%3Csv'
        """
        return "data:image/svg+xml;charset=utf-8," + quote(self.svg(scale=scale, border=border))

    def png_data_uri(self, *, scale: Optional[int] = None, border: Optional[int] = None) -> str:
        """The picture as a PNG file, in an address for the `src` of an image.

            >>> sicklespan.make("hello").png_data_uri(scale=4)[:26]
            'data:image/png;base64,iVBO'
        """
        data = base64.b64encode(self.png(scale=scale, border=border))
        return "data:image/png;base64," + data.decode()

    def _text(self, scale: Optional[int], border: Optional[int]) -> bytes:
        rows = self.matrix_iter(1 if scale is None else scale, border)
        return "".join("".join("01"[pixel] for pixel in row) + "\n" for row in rows).encode()

    def save(self, out: Out, kind: Optional[str] = None, *, scale: Optional[int] = None,
             border: Optional[int] = None, module_mm: Optional[float] = None,
             dpi: Optional[int] = None, inverted: bool = False,
             at: Optional[Tuple[int, int]] = None) -> None:
        """Writes a picture to a file, as its ending or `kind` says, or to a stream, as `kind` says.

        It is a picture of `picture`, or txt: a line of 1 (dark) and 0 for each row of modules. A
        stream is one of bytes, or for txt, svg, eps, zpl and terminal one of text. To a terminal
        the kind terminal is written as `terminal` says.

            >>> symbol = sicklespan.make("hello")
            >>> symbol.save("hello.png", scale=4)
            >>> symbol.save("hello.pdf", module_mm=0.5)
            >>> symbol.save("hello.gif")  # doctest: +ELLIPSIS
            Traceback (most recent call last):
            sicklespan._errors.InvalidFormatError: the kind of a picture is txt, ...
        """
        path = os.fsdecode(out) if isinstance(out, (str, bytes, os.PathLike)) else None
        kind = kind_of(out, path, kind)
        if kind == "txt":
            for name, given in (("module_mm", module_mm), ("dpi", dpi), ("at", at),
                                ("inverted", inverted or None)):
                if given is not None:
                    raise InvalidSettingError(f"{name} is no setting of txt", name)
            data = self._text(scale, border)
        else:
            data = self.picture(kind, scale=scale, border=border, module_mm=module_mm, dpi=dpi,
                                inverted=inverted, at=at)
        may_color = kind == "terminal" and not inverted
        if path is None:
            write(out, kind, colored(data) if may_color and is_terminal(out) else data)
            return
        with open(path, "wb") as it:
            it.write(colored(data) if may_color and is_terminal(it) else data)

    def to_pil(self, *, scale: Optional[int] = None, border: Optional[int] = None,
               module_mm: Optional[float] = None, dpi: Optional[int] = None) -> Any:
        """The picture as an image of Pillow, a `PIL.Image.Image` of black and white (mode 1).

        Pillow is imported when it is called; where it is not installed this is a
        `MissingModuleError`, which is an ImportError too.

            >>> image = sicklespan.make("hello").to_pil(scale=2)
            >>> image.size, image.mode, image.getpixel((8, 8)), image.getpixel((0, 0))
            ((58, 58), '1', 0, 255)
        """
        return image_of(self.png(scale=scale, border=border, module_mm=module_mm, dpi=dpi))

    def __array__(self, dtype: Any = None, copy: Optional[bool] = None) -> Any:
        """What `numpy.array` and `numpy.asarray` return: the modules, 1 for a dark one, by rows.

        It is what they make of `matrix`: of numpy.uint8 if no other type is asked for, and a new
        array each time.

            >>> import numpy
            >>> array = numpy.array(sicklespan.make("hello"))
            >>> array.shape, array.dtype.name, array[0, :8].tolist()
            ((21, 21), 'uint8', [1, 1, 1, 1, 1, 1, 1, 0])
        """
        return array_of(self._modules, self._width, dtype, copy)

    def _repr_svg_(self) -> str:
        """The picture that a notebook shows.

            >>> sicklespan.make("hello")._repr_svg_() == sicklespan.make("hello").svg()
            True
        """
        return self.svg()

    def _repr_png_(self) -> bytes:
        """The picture that a notebook without SVG shows.

            >>> sicklespan.make("hello")._repr_png_() == sicklespan.make("hello").png()
            True
        """
        return self.png()

    def __str__(self) -> str:
        text = self.picture("terminal")
        return (colored(text) if is_terminal(sys.stdout) else text).decode()[:-1]

    def __repr__(self) -> str:
        return f"<sicklespan.Symbol {self.designator}, mask {self._mask}>"

    def __eq__(self, other: object) -> bool:
        return isinstance(other, Symbol) and self.matrix == other.matrix

    def __hash__(self) -> int:
        return hash(self._modules)

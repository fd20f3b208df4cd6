"""Where a picture is written: a path, a stream of bytes or of text, a terminal."""

import io
import os
from typing import IO, Any, Optional, Union

from ._errors import InvalidFormatError

# Where a picture is written.
Out = Union[str, bytes, "os.PathLike[str]", "os.PathLike[bytes]", IO[Any]]
FORMATS = {"terminal": 0, "svg": 1, "png": 2, "pbm": 3, "eps": 4, "escpos": 5, "zpl": 6, "pdf": 7}
# Kinds of pictures that are texts.
_TEXTS = ("txt", "svg", "eps", "zpl", "terminal")
# Black on white, in colors 16 and 231 of 256, and the colors of the terminal (ECMA-48, "SGR").
_BLACK_ON_WHITE, _PLAIN = b"\x1b[38;5;16;48;5;231m", b"\x1b[0m"


def _takes_text(out: Any) -> bool:
    """Whether a stream takes text, and not bytes: one that does not say so is given no bytes."""
    if isinstance(out, io.TextIOBase) or hasattr(out, "encoding"):
        return True
    if isinstance(out, io.IOBase):
        return False
    try:
        out.write(b"")
    except TypeError:
        return True
    return False


def is_terminal(out: Any) -> bool:
    """Whether a stream writes to a terminal, and not to a window that calls itself one."""
    try:
        return os.isatty(out.fileno())
    except (AttributeError, OSError, TypeError, ValueError):
        return False


def colored(text: bytes) -> bytes:
    """Lines in black on white."""
    return b"".join(_BLACK_ON_WHITE + line + _PLAIN + b"\n" for line in text.splitlines())


def kind_of(out: object, path: Optional[str], kind: Optional[str]) -> str:
    """The kind of picture that is written to a path or a stream."""
    if path is None and not hasattr(out, "write"):
        raise TypeError(f"out is a path or a stream, and not {type(out).__name__}")
    if kind is not None and not isinstance(kind, str):
        raise TypeError(f"kind is a str, and not {type(kind).__name__}")
    ending = "" if path is None else os.path.splitext(path)[1]
    kind = (kind or ending.lstrip(".")).lower()
    if kind != "txt" and kind not in FORMATS:
        kinds = ", ".join(("txt", *FORMATS))
        given = f"{kind!r} is none" if kind else "none is given"
        raise InvalidFormatError(f"the kind of a picture is {kinds}; {given}")
    return kind


def write(out: Any, kind: str, data: bytes) -> None:
    """Writes a picture of a kind to a stream."""
    if not _takes_text(out):
        out.write(data)
    elif kind in _TEXTS:
        out.write(data.decode())
    else:
        raise TypeError(f"out is a stream of bytes for {kind}, and not one of text")

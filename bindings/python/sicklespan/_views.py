"""A symbol as objects of modules that are no part of Python, and are imported where needed."""

import importlib
import io
from typing import Any, Optional

from ._errors import MissingModuleError


def _imported(name: str, package: str) -> Any:
    try:
        return importlib.import_module(name)
    except ImportError as error:
        raise MissingModuleError(f"{package} is needed, and not installed: {error}",
                                 name=name) from error


def image_of(picture: bytes) -> Any:
    """A PNG file as an image of Pillow."""
    image = _imported("PIL.Image", "Pillow").open(io.BytesIO(picture))
    image.load()
    return image


def array_of(modules: bytes, width: int, dtype: Any, copy: Optional[bool]) -> Any:
    """Modules as an array of NumPy, by rows; a new one, unless no copy is wanted."""
    numpy = _imported("numpy", "NumPy")
    rows = numpy.frombuffer(modules, numpy.uint8).reshape(width, width)
    if copy is None or copy:
        return rows.astype(rows.dtype if dtype is None else dtype)
    if dtype is not None and numpy.dtype(dtype) != rows.dtype:
        raise ValueError(f"an array of {numpy.dtype(dtype)} is a copy")
    return rows

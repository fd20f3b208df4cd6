"""Symbols and sequences as objects, a part of test_sicklespan.py: what a notebook, NumPy and Pillow
take, and how the symbols of a sequence are written."""

import copy
import importlib.util
import io
import os
import pathlib
import pickle
import sys
import tempfile
import unittest
from unittest import mock

import sicklespan

try:
    import numpy
except ImportError:
    numpy = None
HAS_PILLOW = importlib.util.find_spec("PIL") is not None


class Objects(unittest.TestCase):
    def setUp(self):
        self.symbols = (sicklespan.make("hello"), sicklespan.micro("12345"),
                        sicklespan.make(b"\7" * 2953, "L"))

    def test_notebooks(self):
        for symbol in self.symbols:
            self.assertEqual(symbol._repr_svg_(), symbol.svg())
            self.assertEqual(symbol._repr_png_(), symbol.png())

    @unittest.skipUnless(HAS_PILLOW, "Pillow is not installed")
    def test_images(self):
        for symbol in self.symbols:
            for settings in ({}, {"scale": 1}, {"scale": 3, "border": 0}):
                image = symbol.to_pil(**settings)
                rows = list(symbol.matrix_iter(settings.get("scale", 8), settings.get("border")))
                self.assertEqual((image.size, image.mode), ((len(rows), len(rows)), "1"))
                self.assertEqual(list(image.getdata()),
                                 [255 * (1 - pixel) for row in rows for pixel in row])
        self.assertEqual([round(it) for it in self.symbols[0].to_pil(dpi=300).info["dpi"]],
                         [300, 300])
        # A module of 8 pixels and half a millimetre: 406.4 pixels in an inch.
        self.assertEqual([round(it) for it in self.symbols[0].to_pil(module_mm=0.5).info["dpi"]],
                         [406, 406])

    def test_images_that_are_wrong(self):
        symbol = self.symbols[0]
        for name, settings in (("scale", {"scale": 0}), ("border", {"border": 17}),
                               ("dpi", {"dpi": 49}), ("dpi", {"dpi": 300, "module_mm": 0.33}),
                               ("module_mm", {"module_mm": float("nan")})):
            with self.assertRaises(sicklespan.InvalidSettingError) as raised:
                symbol.to_pil(**settings)
            self.assertEqual(raised.exception.setting, name)
        for name in ("scale", "border", "dpi", "module_mm"):
            with self.assertRaises(TypeError) as raised:
                symbol.to_pil(**{name: "1"})
            self.assertTrue(str(raised.exception).startswith(f"{name} is "), raised.exception)

    def test_modules_that_are_missing(self):
        symbol = self.symbols[0]
        for name, package, call in (("PIL.Image", "Pillow", symbol.to_pil),
                                    ("numpy", "NumPy", symbol.__array__)):
            with mock.patch.dict(sys.modules, {name: None}):
                for error in (sicklespan.MissingModuleError, sicklespan.SicklespanError,
                              ImportError, ValueError):
                    with self.assertRaises(error) as raised:
                        call()
            self.assertEqual(raised.exception.name, name)
            self.assertTrue(str(raised.exception).startswith(
                f"{package} is needed, and not installed: "), raised.exception)

    @unittest.skipIf(numpy is None, "NumPy is not installed")
    def test_arrays(self):
        for symbol in self.symbols:
            wanted = numpy.array(symbol.matrix)
            for array in (numpy.array(symbol), numpy.asarray(symbol), symbol.__array__(),
                          symbol.__array__(copy=True)):
                self.assertEqual((array.dtype, array.shape), (wanted.dtype, wanted.shape))
                self.assertTrue((array == wanted).all())
                array[0, 0] = 7
            self.assertTrue((numpy.array(symbol) == wanted).all())
            for dtype in (bool, numpy.float32, "int64"):
                array = numpy.array(symbol, dtype=dtype)
                self.assertEqual(array.dtype, numpy.dtype(dtype))
                self.assertTrue((array == wanted).all())
                with self.assertRaises(ValueError):
                    symbol.__array__(dtype, copy=False)
            for array in (symbol.__array__(copy=False), symbol.__array__("uint8", copy=False)):
                self.assertTrue((array == wanted).all() and not array.flags.writeable)
        with self.assertRaises(TypeError):
            numpy.array(self.symbols[0], dtype="no type")


class Sequences(unittest.TestCase):
    def setUp(self):
        self.symbols = sicklespan.sequence("one and two", [4, 8])
        self.single = sicklespan.sequence("one and two")

    def test_lists(self):
        for symbols in (self.symbols, self.single, sicklespan.make_sequence("ab", symbol_count=2)):
            self.assertIsInstance(symbols, sicklespan.SymbolSequence)
            self.assertIsInstance(symbols, list)
            plain = list(symbols)
            self.assertTrue(symbols == plain and plain == symbols and repr(symbols) == repr(plain))
            for again in (copy.copy(symbols), copy.deepcopy(symbols),
                          pickle.loads(pickle.dumps(symbols))):
                self.assertEqual((type(again), again), (sicklespan.SymbolSequence, symbols))
            symbols.append(symbols[0])
            self.assertEqual(symbols[:-1] + symbols[-1:], plain + [plain[0]])

    def test_files(self):
        rows = (("part-%d.png", ["part-1.png", "part-2.png", "part-3.png"]),
                ("%03d.svg", ["001.svg", "002.svg", "003.svg"]),
                ("100% %d.PBM", ["100% 1.PBM", "100% 2.PBM", "100% 3.PBM"]),
                ("a.b.txt", ["a.b-03-01.txt", "a.b-03-02.txt", "a.b-03-03.txt"]),
                ("{}%2d.eps", ["{}%2d-03-01.eps", "{}%2d-03-02.eps", "{}%2d-03-03.eps"]))
        for name, names in rows:
            for kind in (str, os.fsencode, pathlib.Path):
                with tempfile.TemporaryDirectory() as folder:
                    self.symbols.save(kind(f"{folder}/{name}"), scale=2, border=1)
                    self.assertEqual(sorted(os.listdir(folder)), names)
                    for symbol, it in zip(self.symbols, names):
                        symbol.save(f"{folder}/wanted", it.rpartition(".")[2], scale=2, border=1)
                        with open(f"{folder}/wanted", "rb") as wanted:
                            self.assertEqual(pathlib.Path(folder, it).read_bytes(), wanted.read())
        with tempfile.TemporaryDirectory() as folder:
            self.single.save(f"{folder}/single.pdf", module_mm=0.5)
            self.single.save(f"{folder}/single-%d.png", dpi=300)
            self.symbols.save(f"{folder}/label", "zpl", at=(20, 30))
            self.assertEqual(sorted(os.listdir(folder)), [
                "label-03-01", "label-03-02", "label-03-03", "single-1.png", "single.pdf"])

    def test_streams(self):
        for kind in ("txt", "terminal", "pbm", "escpos", "zpl"):
            out, wanted = io.BytesIO(), io.BytesIO()
            self.symbols.save(out, kind, border=1)
            for symbol in self.symbols:
                symbol.save(wanted, kind, border=1)
            self.assertEqual(out.getvalue(), wanted.getvalue())
        out = io.BytesIO()
        self.single.save(out, "png")
        self.assertEqual(out.getvalue(), self.single[0].png())

    def test_terminal(self):
        for inverted in (False, True):
            shown = io.StringIO()
            self.symbols.terminal(shown, 1, inverted=inverted)
            wanted = "".join(it.picture("terminal", border=1, inverted=inverted).decode()
                             for it in self.symbols)
            self.assertEqual(shown.getvalue(), wanted)
            with tempfile.TemporaryDirectory() as folder:
                self.symbols.terminal(pathlib.Path(folder, "parts"), 1, inverted=inverted)
                with open(f"{folder}/parts", encoding="utf-8") as it:
                    self.assertEqual(it.read(), wanted)
        with mock.patch("sys.stdout", io.StringIO()) as shown:
            self.symbols.terminal()
        self.assertEqual(shown.getvalue(), "".join(f"{it}\n" for it in self.symbols))

    def test_what_is_wrong(self):
        with tempfile.TemporaryDirectory() as folder:
            with self.assertRaises(sicklespan.InvalidPatternError) as raised:
                self.symbols.save(f"{folder}/%d-%02d.png")
            self.assertIsInstance(raised.exception, sicklespan.SicklespanError)
            for name, kind in (("part-%d", None), ("part.gif", None), ("part.png", "gif")):
                with self.assertRaises(sicklespan.InvalidFormatError):
                    self.symbols.save(f"{folder}/{name}", kind)
            for settings in ({"scale": 0}, {"at": (0, 0)}, {"inverted": True}):
                with self.assertRaises(sicklespan.InvalidSettingError) as raised:
                    self.symbols.save(f"{folder}/part.svg", **settings)
                self.assertEqual(raised.exception.setting, next(iter(settings)))
            with self.assertRaises(FileNotFoundError):
                self.symbols.save(f"{folder}/none/part.svg")
            self.assertEqual(os.listdir(folder), [])
        for kind in ("png", "svg", "eps", "pdf", None):
            out = io.BytesIO()
            with self.assertRaises(sicklespan.InvalidFormatError):
                self.symbols.save(out, kind)
            self.assertEqual(out.getvalue(), b"")
        for name, call in (("out", lambda: self.symbols.save(None, "png")),
                           ("kind", lambda: self.symbols.save("part.png", 5)),
                           ("scale", lambda: self.symbols.save(io.BytesIO(), "txt", scale="a")),
                           ("out", lambda: self.symbols.terminal(5)),
                           ("border", lambda: self.symbols.terminal(io.StringIO(), "1"))):
            with self.assertRaises(TypeError) as raised:
                call()
            self.assertTrue(str(raised.exception).startswith(f"{name} is "), raised.exception)

"""The package through the library: sizes by the tables of ISO/IEC 18004, errors by the header.

    python3 tests/test_sicklespan.py

The last line is 'N passed, M failed'. The environment variable SICKLESPAN_LIBRARY names the
library, where the package does not contain it.
"""

import os
import sys
import threading
import unittest

HERE = os.path.dirname(os.path.abspath(__file__))
if "SICKLESPAN_LIBRARY" in os.environ:
    sys.path.insert(0, os.path.dirname(HERE))
import sicklespan  # noqa: E402
from test_arguments import Arguments  # noqa: E402,F401
from test_examples import Examples  # noqa: E402,F401
from test_helpers import Helpers  # noqa: E402,F401
from test_objects import Objects, Sequences  # noqa: E402,F401
from test_pictures import Pictures, read  # noqa: E402,F401


class Symbols(unittest.TestCase):
    def test_hello(self):
        # The proved program draws the same.
        symbol = sicklespan.make("hello", "L", boost_error=False)
        rows = "".join("".join(".#"[it] for it in row) + "\n" for row in symbol.matrix)
        self.assertEqual(rows, read("crates/qrtext/stdout"))
        self.assertEqual((symbol.version, symbol.level, symbol.error), (1, "L", "L"))
        self.assertEqual((symbol.width, symbol.designator, symbol.is_micro), (21, "1-L", False))
        self.assertIn(symbol.mask, range(8))
        self.assertEqual(symbol, sicklespan.make(b"hello", "l", boost_error=False))
        self.assertNotEqual(symbol, sicklespan.make("hellp", "L", boost_error=False))
        self.assertEqual(sicklespan.__version__, read("VERSION").strip())

    def test_levels(self):
        # Version 1 holds 17, 14, 11 and 7 bytes at L, M, Q and H.
        for count, level in ((17, "L"), (14, "M"), (11, "Q"), (7, "H")):
            strongest = sicklespan.make(b"a" * count, "L")
            self.assertEqual(strongest.designator, f"1-{level}")
            self.assertEqual(sicklespan.make(b"a" * count, level, boost_error=False), strongest)
        self.assertEqual(sicklespan.make(b"a" * 8, "H").designator, "2-H")

    def test_versions(self):
        self.assertEqual(sicklespan.make("a", version=7).version, 7)
        self.assertEqual(sicklespan.make("a", min_version=3).version, 3)
        self.assertEqual(sicklespan.make(b"a" * 2953, "L").version, 40)
        with self.assertRaises(sicklespan.DataTooLongError):
            sicklespan.make(b"a" * 2954, "L")
        for content, most, text in ((b"a" * 18, 1, "by 1 byte"), (b"a" * 30, 13, "by 13 bytes"),
                                    ("\u00e9" * 18, 4, "by 4 bytes")):
            with self.assertRaises(sicklespan.DataTooLongError) as raised:
                sicklespan.make(content, "L", max_version=1)
            self.assertEqual(raised.exception.too_many, most)
            self.assertEqual(str(raised.exception), f"the data are too long, {text}")
        for least, most in ((0, 40), (1, 41), (3, 2), (2 ** 32 + 1, 40)):
            with self.assertRaises(sicklespan.InvalidVersionsError):
                sicklespan.make("a", min_version=least, max_version=most)
        self.assertEqual(sicklespan.make("a", version=3, min_version=3, max_version=3).version, 3)
        for limits in ({"max_version": 2}, {"min_version": 4}):
            with self.assertRaises(sicklespan.InvalidVersionsError):
                sicklespan.make("a", version=3, **limits)
        for level in ("", "X", "LM", "\u0130"):
            with self.assertRaises(sicklespan.InvalidLevelError):
                sicklespan.make("a", level)

    def test_texts(self):
        # Version 1 holds 17 bytes at L, and one less after the 12 bits of the ECI designator.
        self.assertEqual(sicklespan.text("\u00fc" * 7 + "abc", "L").version, 2)
        self.assertEqual(sicklespan.text("\u00fc" * 7 + "ab", "L").version, 1)
        self.assertEqual(sicklespan.make(("\u00fc" * 7 + "abc").encode(), "L").version, 1)
        self.assertEqual(sicklespan.make("", "L").version, 1)
        # After a designator of ISO 8859 each of its characters is one byte.
        self.assertEqual(sicklespan.make("\u00fc" * 16, "L").version, 1)
        self.assertEqual(sicklespan.make("\u00fc" * 17, "L").version, 2)
        for make in (sicklespan.make, sicklespan.text, sicklespan.gs1, sicklespan.micro,
                     sicklespan.sequence):
            with self.assertRaises(sicklespan.InvalidTextError) as raised:
                make("(10)a\ud800")
            self.assertIn("5", str(raised.exception))

    def test_smallest_texts(self):
        # At M version 1 holds 128 bits, of which 12 come before Kanji of 13 bits, and 24 before the
        # bytes of a part of ISO 8859 or of UTF-8.
        for content, least, of_utf8 in (
                ("\u5e02\u5317\u524d\u5009\u6771", 1, 2), ("Gr\u00fc\u00dfe an K\u00f6ln", 1, 2),
                ("Gr\u00fc\u00dfe aus K\u00f6ln", 2, 2),
                ("\u039e\u03b5\u03c3\u03ba\u03b5\u03c0\u03ac\u03b6\u03c9", 1, 2),
                ("\U0001f600 OK \U0001f600", 1, 1)):
            symbol = sicklespan.make(content, "M", boost_error=False)
            self.assertEqual(symbol.version, least)
            self.assertEqual(sicklespan.text(content, "M", boost_error=False).version, of_utf8)
        # It holds 104 and 72 bits at Q and H.
        symbol = sicklespan.make("\u5e02\u5317\u524d\u5009\u6771")
        self.assertEqual(symbol.designator, "1-Q")
        with self.assertRaises(sicklespan.DataTooLongError) as raised:
            sicklespan.make("\u5e02\u5317\u524d\u5009\u6771", "H", version=1)
        self.assertEqual(raised.exception.too_many, 3)

    def test_bytes_without_kanji(self):
        # Version 1 holds 152 bits at L, of which 12 come before the bytes of 8 bits, and before
        # the pairs of the Kanji mode, of 13.
        pairs = b"\x93_" * 9
        self.assertEqual(sicklespan.make(pairs, "L").version, 1)
        self.assertEqual(sicklespan.make(pairs, "L", kanji=False).version, 2)
        self.assertEqual(sicklespan.make(pairs[:17], "L", kanji=False).version, 1)
        # It holds 72 bits at H.
        self.assertEqual(sicklespan.make(pairs[:7], kanji=False).designator, "1-H")
        for data in (b"hello", b"0123456789", b"\xff\x80"):
            self.assertEqual(sicklespan.make(data, kanji=False), sicklespan.make(data))
        with self.assertRaises(sicklespan.DataTooLongError) as raised:
            sicklespan.make(pairs[:8], "H", version=1, kanji=False)
        self.assertEqual(raised.exception.too_many, 1)
        with self.assertRaises(TypeError):
            sicklespan.make("hello", kanji=False)
        with self.assertRaises(sicklespan.SicklespanError):
            sicklespan.make(b"hello", kanji=False, micro=True)
        self.assertFalse(sicklespan.make(b"1", kanji=False, micro=None).is_micro)

    def test_types(self):
        self.assertEqual(sicklespan.make(bytearray(b"hello")), sicklespan.make(b"hello"))
        self.assertEqual(sicklespan.make(memoryview(b"hello")), sicklespan.make(b"hello"))
        self.assertEqual(sicklespan.micro(bytearray(b"1")), sicklespan.micro("1"))
        self.assertEqual(sicklespan.elements(bytearray(b"10A")), sicklespan.elements(b"10A"))
        wrong = (("content", lambda: sicklespan.make(123)),
                 ("content", lambda: sicklespan.gs1(b"(10)A")),
                 ("content", lambda: sicklespan.elements("10A")),
                 ("content", lambda: sicklespan.text(b"a")),
                 ("error", lambda: sicklespan.make("a", 1)),
                 ("symbol_count", lambda: sicklespan.make_sequence("abc", symbol_count="2")),
                 ("version", lambda: sicklespan.make("a", version="M1")),
                 ("max_version", lambda: sicklespan.sequence("a", [0], max_version=2.5)),
                 ("cuts", lambda: sicklespan.sequence("a", ["0"])),
                 ("cuts", lambda: sicklespan.sequence("a", 1)),
                 ("scale", lambda: sicklespan.make("a").svg(scale=1.5)),
                 ("module_mm", lambda: sicklespan.make("a").svg(module_mm="1")))
        for name, call in wrong:
            with self.assertRaises(TypeError) as raised:
                call()
            self.assertTrue(str(raised.exception).startswith(name), raised.exception)

    def test_elements(self):
        written = sicklespan.gs1("(10)ABC(01)09506000134352(21)7")
        self.assertEqual(written, sicklespan.elements(b"10ABC\x1d0109506000134352217"))
        self.assertNotEqual(written, sicklespan.make(b"10ABC\x1d0109506000134352217"))
        with self.assertRaises(sicklespan.InvalidCharacterError) as raised:
            sicklespan.elements(b"10A B")
        self.assertEqual((raised.exception.place, raised.exception.element), (3, None))
        self.assertEqual(str(raised.exception), "a character is none of a GS1 element, at byte 3")
        faults = {"10ABC": sicklespan.NoElementsError, "(1)2": sicklespan.InvalidIdentifierError,
                  "(05)2": sicklespan.UnknownIdentifierError, "(10)": sicklespan.EmptyValueError,
                  "(10)" + "A" * 91: sicklespan.ValueTooLongError,
                  "(10)a b": sicklespan.InvalidCharacterError,
                  "(01)1": sicklespan.WrongLengthError,
                  "(01)09506000134353": sicklespan.WrongCheckDigitError}
        for text, error in faults.items():
            with self.assertRaises(error) as raised:
                sicklespan.gs1(text)
            if error is not sicklespan.NoElementsError:
                self.assertIsInstance(raised.exception, sicklespan.ElementError)
                self.assertEqual(raised.exception.element, 1)
                with self.assertRaises(error) as raised:
                    sicklespan.gs1(f"(21)A(17)261231{text}")
                self.assertEqual(raised.exception.element, 3)
                self.assertTrue(str(raised.exception).startswith("element 3"))
                with self.assertRaises(error) as raised:
                    sicklespan.gs1_unchecked(f"(21)A(17)261231{text}")
                self.assertEqual(raised.exception.element, 3)
                self.assertTrue(str(raised.exception).startswith("element 3: "))
        with self.assertRaises(sicklespan.EmptyValueError) as raised:
            sicklespan.gs1("(10")
        self.assertEqual(
            str(raised.exception),
            "element 1 (10), character 1: a value is empty, or a bracket is not closed")
        # The value ends where a bracket is.
        with self.assertRaises(sicklespan.InvalidIdentifierError) as raised:
            sicklespan.gs1("(10)a(b")
        self.assertEqual(str(raised.exception),
                         "element 2: an identifier is not two to four digits in brackets")

    def test_elements_by_the_table(self):
        # What the table of identifiers refuses, and a reader of elements does not need.
        long, unknown = "the value is too long", "an identifier is unknown"
        rows = (("(10)ABCDEFGHIJKLMNOPQRSTUVWXYZ1234", "ValueTooLong", 10, 21, long),
                ("(21)ABCDEFGHIJKLMNOPQRSTU", "ValueTooLong", 21, 21, long),
                ("(37)ABC", "InvalidCharacter", 37, 1, "a character that is not allowed there"),
                ("(30)123456789", "ValueTooLong", 30, 9, long),
                ("(8003)09506000134353", "WrongCheckDigit", 8003, 14, "wrong check digit"),
                ("(253)9506000134353", "WrongCheckDigit", 253, 13, "wrong check digit"),
                ("(7003)2612", "WrongLength", 7003, 5, "the value is too short"),
                ("(17)261331", "WrongValue", 17, 3, "no such month"),
                ("(4399)x", "UnknownIdentifier", 4399, None, unknown),
                ("(8099)x", "UnknownIdentifier", 8099, None, unknown),
                ("(249)x", "UnknownIdentifier", 249, None, unknown),
                ("(7299)a", "UnknownIdentifier", 7299, None, unknown))
        for text, error, identifier, character, reason in rows:
            with self.assertRaises(getattr(sicklespan, f"{error}Error")) as raised:
                sicklespan.gs1(f"(99)A{text}")
            it = raised.exception
            self.assertEqual((it.element, it.identifier, it.character, it.reason),
                             (2, identifier, character, reason))
            sicklespan.gs1_unchecked(f"(99)A{text}")
        self.assertEqual(str(it), "element 2 (7299): an identifier is unknown")

    def test_elements_together(self):
        # What may not stand together, and is drawn unchecked.
        rows = (("(10)ABC", "Missing", 1, 10), ("(91)A(02)09506000134352", "Missing", 2, 2),
                ("(01)09506000134352(10)A(10)B", "Conflicting", 2, 10),
                ("(01)09506000134352(255)9506000134352", "Conflicting", 1, 1))
        for text, error, element, identifier in rows:
            with self.assertRaises(getattr(sicklespan, f"{error}ElementError")) as raised:
                sicklespan.gs1(text)
            it = raised.exception
            self.assertEqual((it.element, it.identifier, it.character),
                             (element, identifier, None))
            sicklespan.gs1_unchecked(text)
        with self.assertRaises(sicklespan.DataTooLongError) as too_long:
            sicklespan.gs1("(10)ABCDEF(01)09506000134352", "H", 1)
        self.assertEqual(too_long.exception.too_many, 18)

    def test_number_signs(self):
        # One identifier has them by the table, and all unchecked.
        written = sicklespan.gs1("(8010)0614141#A(8011)1")
        self.assertEqual(written, sicklespan.elements(b"80100614141#A\x1d80111"))
        with self.assertRaises(sicklespan.InvalidCharacterError):
            sicklespan.gs1("(91)A#")
        sicklespan.gs1_unchecked("(91)A#")

    def test_links(self):
        text = "(17)261231(10)A/B(01)09506000134352"
        link = "https://id.gs1.org/01/09506000134352/10/A%2FB?17=261231"
        self.assertEqual(sicklespan.link_text(text, "id.gs1.org"), link)
        self.assertEqual(sicklespan.link(text, "id.gs1.org"), sicklespan.make(link))
        self.assertEqual(sicklespan.link_text("(01)09506000134352", "a.b/c"),
                         "https://a.b/c/01/09506000134352")
        many = "(01)09506000134352" + "".join(f"({n})" + "/" * 90 for n in range(91, 100))
        self.assertEqual(len(sicklespan.link_text(many, "a.b")), 29 + 9 * (4 + 270))
        faults = (("(01)09506000134353", "a.b", "WrongCheckDigit"),
                  ("(01)09506000134352", "a//b", "WrongDomain"), ("(10)A", "a.b", "NoKey"),
                  ("(01)09506000134352(00)106141412345678908", "a.b", "SecondKey"),
                  ("(01)09506000134352(10)A(235)B", "a.b", "WrongQualifier"),
                  ("(01)09506000134352(3922)2172", "a.b", "MissingElement"),
                  ("(00)106141412345678908(420)1(421)0361", "a.b", "ConflictingElement"),
                  ("(10)A(01)09506000134352(10)A", "a.b", "RepeatedElement"))
        for text, domain, error in faults:
            for call in (sicklespan.link, sicklespan.link_text):
                with self.assertRaises(getattr(sicklespan, f"{error}Error")) as raised:
                    call(text, domain)
        self.assertEqual((raised.exception.element, raised.exception.identifier), (1, 10))
        with self.assertRaises(sicklespan.DataTooLongError) as raised:
            sicklespan.link("(01)09506000134352", "a.b", version=1)
        self.assertIsNone(raised.exception.too_many)

    def test_micro(self):
        # Worked by hand from the steps of the standard.
        symbol = sicklespan.micro("12345")
        self.assertEqual((symbol.version, symbol.level, symbol.mask), ("M1", "L", 2))
        self.assertEqual((symbol.width, symbol.is_micro), (11, True))
        self.assertEqual(symbol.default_border_size, 2)
        # M3 and M4 hold 84 and 128 bits at L; five Kanji take 2 + 3 + 65, and nine 3 + 4 + 117.
        self.assertEqual(sicklespan.micro("\u5e02\u5317\u524d\u5009\u6771").version, "M3")
        self.assertEqual(sicklespan.micro("\u6771" * 9).version, "M4")
        with self.assertRaises(sicklespan.DataTooLongError) as raised:
            sicklespan.micro("\u6771" * 10)
        self.assertEqual(raised.exception.too_many, 3)
        for content, place in (("\u00e9", 0), ("\u6771\u00e9", 1), ("\u6771\u6771~", 2)):
            with self.assertRaises(sicklespan.UnwritableTextError) as raised:
                sicklespan.micro(content)
            self.assertIsInstance(raised.exception, sicklespan.InvalidTextError)
            self.assertEqual(raised.exception.place, place)
            self.assertEqual(str(raised.exception),
                             f"no Micro symbol is read as the text, at character {place}")
        self.assertEqual(sicklespan.micro("\u00e9".encode()).version, "M3")
        with self.assertRaises(sicklespan.InvalidLevelError) as raised:
            sicklespan.micro("12345", "H")
        self.assertEqual(str(raised.exception),
                         "there is no such level, of which Micro symbols have L, M and Q")
        with self.assertRaises(sicklespan.DataTooLongError) as raised:
            sicklespan.micro("1" * 36)
        self.assertEqual(raised.exception.too_many, 1)

    def test_sequences(self):
        symbols = sicklespan.sequence("one and two", [4, 8])
        self.assertEqual(len(symbols), 3)
        self.assertEqual(len(set(symbols)), 3)
        # After the 20 bits of a header, version 1 holds 5 bytes at level H, and 7 without one.
        self.assertEqual(sicklespan.sequence("one and two", error="H", max_version=1),
                         sicklespan.sequence("one and two", [5, 10], "H", max_version=1))
        self.assertEqual(sicklespan.sequence("four", error="H", max_version=1),
                         [sicklespan.make("four", "H")])
        with self.assertRaises(sicklespan.DataTooLongError):
            sicklespan.sequence("a" * 81, error="H", max_version=1)
        for cuts, error in (([3, 2], sicklespan.InvalidCutsError),
                            ([12], sicklespan.InvalidCutsError),
                            ([-1], sicklespan.InvalidCutsError),
                            ([2 ** 64 + 1], sicklespan.InvalidCutsError),
                            ([1 - 2 ** 64], sicklespan.InvalidCutsError),
                            ([], sicklespan.InvalidPartCountError),
                            ([0] * 16, sicklespan.InvalidPartCountError)):
            with self.assertRaises(error):
                sicklespan.sequence("one and two", cuts)
        with self.assertRaises(sicklespan.DataTooLongError) as raised:
            sicklespan.sequence(b"a" * 40, [1], "H", max_version=1)
        self.assertIsNone(raised.exception.too_many)
        with self.assertRaises(sicklespan.InvalidVersionsError):
            sicklespan.sequence("one and two", [4], max_version=0)

    def test_sequences_of_text(self):
        # After the header and the 12 bits that say UTF-8, version 1 holds 3 bytes at level H.
        self.assertEqual(sicklespan.sequence("éé", error="H", max_version=1),
                         sicklespan.sequence("éé", [2], "H", max_version=1))
        self.assertEqual(sicklespan.sequence("é", error="H", max_version=1),
                         [sicklespan.make("é", "H")])
        self.assertNotEqual(sicklespan.sequence("éé", [2]),
                            sicklespan.sequence("éé".encode(), [2]))
        with self.assertRaises(sicklespan.InvalidCutsError):
            sicklespan.sequence("éé", [1])
        with self.assertRaises(sicklespan.DataTooLongError):
            sicklespan.sequence("é" * 17, error="H", max_version=1)

    def test_names_of_segno(self):
        # M3 holds 23 digits at L and 18 at M, M4 35, 30 and 21 at L, M and Q; M1 has L alone.
        for count, error, designator in ((5, None, "M1-L"), (6, None, "M2-M"), (9, "L", "M2-L"),
                                         (18, None, "M3-M"), (19, None, "M3-L"),
                                         (21, "M", "M4-Q"), (22, "L", "M3-L"), (30, "L", "M4-M"),
                                         (31, "L", "M4-L")):
            self.assertEqual(sicklespan.make_micro("1" * count, error).designator, designator)
        self.assertEqual(sicklespan.make_micro("1" * 6, boost_error=False).designator, "M2-L")
        with self.assertRaises(sicklespan.DataTooLongError):
            sicklespan.make_micro("1" * 36)

        self.assertFalse(sicklespan.make("1").is_micro)
        self.assertEqual(sicklespan.make("1", None), sicklespan.make("1", "M"))
        self.assertEqual(sicklespan.make_qr("1", "Q", 3), sicklespan.make("1", "Q", 3))
        self.assertEqual(sicklespan.make("12345", "L", micro=None).designator, "M1-L")
        self.assertEqual(sicklespan.make("12345", micro=True).designator, "M1-L")
        self.assertEqual(sicklespan.make("12345", "M", micro=None).designator, "M2-M")
        self.assertEqual(sicklespan.make("1" * 36, "L", micro=None), sicklespan.make("1" * 36, "L"))
        for content, error, more in (("\u00e9", "L", {}), ("1", "H", {}),
                                     ("1", "L", {"version": 1}), ("1", "L", {"min_version": 2})):
            self.assertEqual(sicklespan.make(content, error, micro=None, **more),
                             sicklespan.make(content, error, **more))
        for content, options, error in (
                ("1" * 36, {}, sicklespan.DataTooLongError),
                ("1", {"error": "H"}, sicklespan.InvalidLevelError),
                ("\u00e9", {}, sicklespan.UnwritableTextError),
                ("1", {"version": 1}, sicklespan.InvalidVersionsError)):
            with self.assertRaises(error):
                sicklespan.make(content, micro=True, **options)

    def test_sequences_in_so_many(self):
        symbols = sicklespan.make_sequence("abcdefghij", symbol_count=4)
        self.assertEqual(symbols, sicklespan.sequence("abcdefghij", [2, 5, 7]))
        self.assertEqual(sicklespan.make_sequence("\u00e9" * 5, "L", symbol_count=2),
                         sicklespan.sequence("\u00e9" * 5, [4], "L"))
        self.assertEqual(sicklespan.make_sequence("one and two", "H", max_version=1),
                         sicklespan.sequence("one and two", error="H", max_version=1))
        for count in (0, 1, 17, -1, 2 ** 64 + 2):
            with self.assertRaises(sicklespan.InvalidPartCountError):
                sicklespan.make_sequence("abc", symbol_count=count)

    def test_threads(self):
        wanted, drawn = sicklespan.make("threads"), []
        threads = [threading.Thread(target=lambda: drawn.append(sicklespan.make("threads")))
                   for _ in range(8)]
        for it in threads:
            it.start()
        for it in threads:
            it.join()
        self.assertEqual(drawn, [wanted] * 8)


if __name__ == "__main__":
    ran = unittest.main(exit=False).result
    bad = len(ran.failures) + len(ran.errors)
    print(f"{ran.testsRun - bad - len(ran.skipped)} passed, {bad} failed")
    sys.exit(bad > 0 or ran.testsRun == 0)

"""Helpers, a part of test_sicklespan.py: texts as their specifications and segno have them, which
are read back by a reader that is written apart, and values that are wrong."""

import datetime
import decimal
import random
import re
import unittest
import urllib.parse

import sicklespan
from sicklespan import helpers

try:
    import segno.helpers
except ImportError:
    segno = None

D = datetime.date
SEGNO = segno and segno.helpers
# What both draw alike: the function, its arguments, and the text that segno 1.4.1 makes of them.
ROWS = (
    ("make_wifi_data", {"ssid": "My network", "password": "a password", "security": "WPA"},
     "WIFI:T:WPA;S:My network;P:a password;;"),
    ("make_wifi_data", {"ssid": "caf\u00e9", "password": "0123456789", "security": "wep"},
     "WIFI:T:WEP;S:caf\u00e9;P:0123456789;;"),
    ("make_wifi_data", {"ssid": "open", "security": "nopass"}, "WIFI:T:nopass;S:open;;"),
    ("make_wifi_data", {"ssid": "a;b:c\"d\\e"}, "WIFI:S:a\\;b\\:c\\\"d\\\\e;;"),
    ("make_geo_data", {"lat": 38.8976763, "lng": -77.0365297}, "geo:38.8976763,-77.0365297"),
    ("make_make_email_data", {"to": "me@example.org"}, "mailto:me@example.org"),
    ("make_make_email_data",
     {"to": ("me@example.org", "you@example.org"), "cc": "a@example.org", "bcc": ["b@example.org"],
      "subject": "Test", "body": "Hello & bye"},
     "mailto:me@example.org,you@example.org?cc=a@example.org&bcc=b@example.org&subject=Test"
     "&body=Hello%20%26%20bye"),
    ("make_mecard_data", {"name": "Owen,Sean", "email": "srowen@example.com",
                          "phone": "12125551212"},
     "MECARD:N:Owen,Sean;TEL:12125551212;EMAIL:srowen@example.com;;"),
    ("make_mecard_data",
     {"name": "a;b", "reading": "c:d", "phone": ["+49 30 1", "2"], "nickname": "\"e\"",
      "birthday": D(1996, 4, 15), "url": "http://example.org/?a=b;c", "pobox": "1", "city": "K\\",
      "country": "Japan"},
     "MECARD:N:a\\;b;SOUND:c\\:d;TEL:+49 30 1;TEL:2;NICKNAME:\\\"e\\\";BDAY:19960415;"
     "URL:http\\://example.org/?a=b\\;c;ADR:1,,,K\\\\,,,Japan;;"),
    ("make_vcard_data",
     {"name": "Doe;John", "displayname": "John Doe", "email": ["me@example.org", "b@example.org"],
      "phone": "+1", "fax": "2", "videophone": "3", "memo": "a,b;c", "nickname": "J",
      "birthday": "1996-04-15", "url": "http://example.org", "pobox": "4", "street": "5",
      "city": "6", "region": "7", "zipcode": "8", "country": "9", "org": "A, B", "lat": 37.386013,
      "lng": -122.082932, "source": "http://example.org/card", "rev": D(1995, 10, 31),
      "title": ["T", "U"], "photo_uri": "http://example.org/photo"},
     "BEGIN:VCARD\r\nVERSION:3.0\r\nN:Doe;John\r\nFN:John Doe\r\nORG:A\\, B\r\n"
     "EMAIL:me@example.org\r\nEMAIL:b@example.org\r\nTEL:+1\r\nTEL;TYPE=FAX:2\r\n"
     "TEL;TYPE=VIDEO:3\r\nURL:http://example.org\r\nTITLE:T\r\nTITLE:U\r\n"
     "PHOTO;VALUE=uri:http://example.org/photo\r\nNICKNAME:J\r\nADR:4;;5;6;7;8;9\r\n"
     "BDAY:1996-04-15\r\nGEO:37.386013;-122.082932\r\nSOURCE:http://example.org/card\r\n"
     "NOTE:a\\,b\\;c\r\nREV:1995-10-31\r\nEND:VCARD\r\n"),
    ("make_epc_qr_data",
     {"name": "Wikimedia Foerdergesellschaft", "iban": "DE33100205000001194700", "amount": 123.45,
      "text": "Spende fuer Wikipedia", "bic": "BFSWDE33BER", "encoding": "UTF-8"},
     "BCD\n002\n1\nSCT\nBFSWDE33BER\nWikimedia Foerdergesellschaft\nDE33100205000001194700\n"
     "EUR123.45\n\n\nSpende fuer Wikipedia"),
    ("make_epc_qr_data",
     {"name": "\u0160koda", "iban": "GB82WEST12345698765432", "amount": decimal.Decimal("1000.50"),
      "reference": "RF18539007547034", "purpose": "CHAR", "encoding": 3},
     "BCD\n002\n3\nSCT\n\n\u0160koda\nGB82WEST12345698765432\nEUR1000.5\nCHAR\nRF18539007547034"),
)

# Examples of RFC 6068, "Basic Examples", "Examples of Complicated Email Addresses" and "Examples
# Using UTF-8-Based Percent-Encoding".
EMAILS = (
    ({"to": "chris@example.com"}, "chris@example.com"),
    ({"to": "infobot@example.com", "subject": "current-issue"},
     "infobot@example.com?subject=current-issue"),
    ({"to": "infobot@example.com", "body": "send current-issue"},
     "infobot@example.com?body=send%20current-issue"),
    ({"to": "infobot@example.com", "body": "send current-issue\nsend index"},
     "infobot@example.com?body=send%20current-issue%0D%0Asend%20index"),
    ({"to": "joe@example.com", "cc": "bob@example.com", "body": "hello"},
     "joe@example.com?cc=bob@example.com&body=hello"),
    ({"to": "gorby%kremvax@example.com"}, "gorby%25kremvax@example.com"),
    ({"to": "unlikely?address@example.com"}, "unlikely%3Faddress@example.com"),
    ({"to": "Mike&family@example.org"}, "Mike%26family@example.org"),
    ({"to": '"not@me"@example.org'}, "%22not%40me%22@example.org"),
    ({"to": '"oh\\\\no"@example.org'}, "%22oh%5C%5Cno%22@example.org"),
    ({"to": '"\\\\\\"it\'s\\ ugly\\\\\\""@example.org'},
     "%22%5C%5C%5C%22it's%5C%20ugly%5C%5C%5C%22%22@example.org"),
    ({"to": "user@example.org", "subject": "caf\u00e9"}, "user@example.org?subject=caf%C3%A9"),
    ({"to": "user@example.org", "subject": "caf\u00e9", "body": "caf\u00e9"},
     "user@example.org?subject=caf%C3%A9&body=caf%C3%A9"),
    ({"to": "user@\u7d0d\u8c46.example.org", "subject": "Test", "body": "NATTO"},
     "user@%E7%B4%8D%E8%B1%86.example.org?subject=Test&body=NATTO"),
)

# Lines of RFC 2426, "Stevenson" and "Public" of its examples.
CARDS = (
    ({"name": "Public;John;Quinlan;Mr.;Esq."}, "N:Public;John;Quinlan;Mr.;Esq."),
    ({"name": "Stevenson;John;Philip,Paul;Dr.;Jr.,M.D.,A.C.P."},
     "N:Stevenson;John;Philip,Paul;Dr.;Jr.,M.D.,A.C.P."),
    ({"displayname": "Mr. John Q. Public, Esq."}, "FN:Mr. John Q. Public\\, Esq."),
    ({"nickname": "Robbie"}, "NICKNAME:Robbie"),
    ({"photo_uri": "http://www.abc.com/pub/photos/jqpublic.gif"},
     "PHOTO;VALUE=uri:http://www.abc.com/pub/photos/jqpublic.gif"),
    ({"birthday": "1996-04-15"}, "BDAY:1996-04-15"),
    ({"birthday": "1953-10-15T23:10:00Z"}, "BDAY:1953-10-15T23:10:00Z"),
    ({"birthday": "1987-09-27T08:30:00-06:00"}, "BDAY:1987-09-27T08:30:00-06:00"),
    ({"lat": 37.386013, "lng": -122.082932}, "GEO:37.386013;-122.082932"),
    ({"title": "Director, Research and Development"}, "TITLE:Director\\, Research and Development"),
    ({"memo": "This fax number is operational 0800 to 1715 EST, Mon-Fri."},
     "NOTE:This fax number is operational 0800 to 1715 EST\\, Mon-Fri."),
    ({"rev": "1995-10-31T22:27:10Z"}, "REV:1995-10-31T22:27:10Z"),
    ({"rev": datetime.datetime(1995, 10, 31, 22, 27, 10, 5, datetime.timezone.utc)},
     "REV:1995-10-31T22:27:10Z"),
    ({"rev": "1997-11-15"}, "REV:1997-11-15"),
    ({"source": "ldap://ldap.host/cn=Babs%20Jensen,%20o=Babsco,%20c=US"},
     "SOURCE:ldap://ldap.host/cn=Babs%20Jensen,%20o=Babsco,%20c=US"),
    ({"url": "http://www.swbyps.restaurant.french/~chezchic.html"},
     "URL:http://www.swbyps.restaurant.french/~chezchic.html"),
    # "A formatted text line break in a text value type MUST also be escaped with .. n".
    ({"memo": "one\r\ntwo\nthree\\n"}, "NOTE:one\\ntwo\\nthree\\\\n"),
    # A URI is no text value.
    ({"url": ["http://example.org/a,b;c"]}, "URL:http://example.org/a,b;c"),
    # Zero is a number.
    ({"lat": 0, "lng": decimal.Decimal("-0.5")}, "GEO:0.000000;-0.500000"),
)

PERSON = {"name": "Public;John", "displayname": "John Public"}
PAYMENT = {"name": "Red Cross", "iban": "BE72000000001616", "amount": 1}
# Arguments that are wrong, by function and parameter, with others that it needs.
WRONG = {
    "make_wifi": ({"ssid": "a"}, (
        ("ssid", {"ssid": ""}), ("ssid", {"ssid": "a" * 33}), ("ssid", {"ssid": "\u00e9" * 17}),
        ("ssid", {"ssid": "a\nb"}), ("security", {"security": "WPA2"}),
        ("security", {"security": ""}), ("security", {"password": "a password"}),
        ("password", {"security": "WPA"}), ("password", {"security": "WPA", "password": "1234567"}),
        ("password", {"security": "WPA", "password": "g" * 64}),
        ("password", {"security": "WPA", "password": "0" * 65}),
        ("password", {"security": "WPA", "password": "p\u00e4ssword"}),
        ("password", {"security": "WPA", "password": "pass\tword"}),
        ("password", {"security": "SAE", "password": ""}),
        ("password", {"security": "WEP", "password": "123456"}),
        ("password", {"security": "nopass", "password": "1"}))),
    "make_geo": ({"lat": 0, "lng": 0}, (
        ("lat", {"lat": 90.1}), ("lat", {"lat": -91}), ("lat", {"lat": float("nan")}),
        ("lat", {"lat": decimal.Decimal("sNaN")}), ("lat", {"lat": 10 ** 5000}),
        ("lng", {"lng": 180.1}), ("lng", {"lng": float("-inf")}),
        ("lng", {"lng": decimal.Decimal("nan")}))),
    "make_email": ({"to": "a@b.c"}, (
        ("to", {"to": ""}), ("to", {"to": None}), ("to", {"to": []}), ("to", {"to": "a"}),
        ("to", {"to": "a@"}), ("to", {"to": "@b.c"}), ("to", {"to": "a@b@c.d"}),
        ("to", {"to": "a b@c.d"}), ("to", {"to": "a..b@c.d"}), ("to", {"to": "a@.c"}),
        ("to", {"to": "a,b@c.d"}), ("to", {"to": ["a@b.c", "a"]}), ("to", {"to": "a@b.c\n"}),
        ("cc", {"cc": "a"}), ("bcc", {"bcc": ["a@b"  "@c"]}), ("subject", {"subject": "a\nb"}),
        ("body", {"body": "a\0b"}))),
    "make_mecard": ({"name": "a"}, (
        ("name", {"name": ""}), ("name", {"name": "  "}), ("name", {"name": "a\nb"}),
        ("phone", {"phone": "1" * 25}), ("phone", {"phone": "one"}), ("phone", {"phone": "+"}),
        ("videophone", {"videophone": ["1", "2;"]}), ("email", {"email": "a"}),
        ("birthday", {"birthday": "1996-04-15"}), ("birthday", {"birthday": "19960431"}),
        ("birthday", {"birthday": "\u0661" * 8}), ("url", {"url": "http://a b"}),
        ("memo", {"memo": "\x1b"}), ("city", {"city": "a\nb"}), ("reading", {"reading": "\x7f"}),
        ("nickname", {"nickname": "\x85"}))),
    "make_vcard": (PERSON, (
        ("name", {"name": ""}), ("name", {"name": ";;"}), ("name", {"name": "a;b;c;d;e;f"}),
        ("name", {"name": "a\\"}), ("name", {"name": "a\\n"}), ("displayname", {"displayname": ""}),
        ("email", {"email": "a"}), ("birthday", {"birthday": "19960415"}),
        ("birthday", {"birthday": "1996-02-30"}), ("birthday", {"birthday": "1996-04-1\u0665"}),
        ("rev", {"rev": "1995-10-31T22:27"}),
        ("rev", {"rev": "1995-10-31T25:27:10Z"}), ("rev", {"rev": "1995-10-31 22:27:10"}),
        ("lng", {"lat": 1}), ("lat", {"lng": 1}), ("lat", {"lat": 91, "lng": 0}),
        ("url", {"url": "a\tb"}), ("source", {"source": "<a>"}), ("org", {"org": "a\nb"}),
        ("photo_uri", {"photo_uri": ["http://a", "b c"]}), ("title", {"title": "a\rb"}))),
    "make_epc_qr": (PAYMENT, (
        ("name", {"name": ""}), ("name", {"name": "a" * 71}), ("name", {"name": "a\nb"}),
        ("iban", {"iban": ""}), ("iban", {"iban": "BE72000000001617"}), ("iban", {"iban": "BE72"}),
        ("iban", {"iban": "BE7200000000161\u00df"}), ("iban", {"iban": "BE72" + "0" * 31}),
        ("amount", {"amount": 0}), ("amount", {"amount": -1}), ("amount", {"amount": 0.004}),
        ("amount", {"amount": 1000000000}), ("amount", {"amount": "1.005"}),
        ("amount", {"amount": "one"}), ("amount", {"amount": "1,5"}), ("amount", {"amount": ""}),
        ("amount", {"amount": float("nan")}), ("amount", {"amount": float("inf")}),
        ("amount", {"amount": 1e300}), ("amount", {"amount": decimal.Decimal("sNaN")}),
        ("amount", {"amount": decimal.Decimal("1.001")}), ("amount", {"amount": 10 ** 5000}),
        ("text", {"text": "a" * 141}), ("text", {"text": "a\nb"}),
        ("text", {"text": "\u20ac" * 100}), ("reference", {"reference": "a" * 36}),
        ("reference", {"reference": "RF19539007547034"}), ("reference", {"reference": "RF18"}),
        ("reference", {"reference": "1", "text": "a"}), ("bic", {"bic": "BFSWDE3"}),
        ("bic", {"bic": "BFSW1233"}), ("purpose", {"purpose": "CHARI"}),
        ("purpose", {"purpose": "\u00e9"}), ("information", {"information": "a" * 71}),
        ("encoding", {"encoding": 0}), ("encoding", {"encoding": 9}),
        ("encoding", {"encoding": "latin-1"}), ("encoding", {"encoding": 2, "text": "\u20ac"}))),
}


def reads(text, end):
    """The fields of a text whose signs have backslashes, each with its name, up to an empty one."""
    fields = re.findall(r"((?:[^\\;]|\\.)*);", text, re.S)
    assert text == "".join(f"{it};" for it in fields) and fields[-1] == end, text
    found = [re.fullmatch(r"([A-Z-]+):(.*)", it, re.S).groups() for it in fields[:-1]]
    return [(name, re.sub(r"\\(.)", r"\1", value, flags=re.S)) for name, value in found]


class Helpers(unittest.TestCase):
    def test_texts(self):
        for call, given, text in ROWS:
            self.assertEqual(getattr(helpers, call)(**given), text)
        self.assertIs(helpers.make_make_email_data, helpers.make_email_data)

    @unittest.skipIf(segno is None, "segno is not installed")
    def test_texts_of_segno(self):
        for call, given, text in ROWS:
            if call == "make_epc_qr_data":
                codes = ("", "utf-8", "iso-8859-1", "iso-8859-2")
                code = int(text.split("\n")[2])
                found = SEGNO._make_epc_qr_data(**given).decode(codes[code])
            else:
                found = getattr(SEGNO, call)(**given)
            self.assertEqual(found, text)

    def test_networks(self):
        # ZXing, "Barcode Contents": a name with quotes, a semicolon and a backslash.
        self.assertEqual(helpers.make_wifi_data('"foo;bar\\baz"'),
                         'WIFI:S:\\"foo\\;bar\\\\baz\\";;')
        self.assertEqual(helpers.make_wifi_data("a,b:c"), "WIFI:S:a\\,b\\:c;;")
        # The grammar of the Wi-Fi Alliance: hidden, and a semicolon at the end.
        self.assertEqual(helpers.make_wifi_data("a", "b" * 8, "SAE", True),
                         "WIFI:T:SAE;S:a;P:bbbbbbbb;H:true;;")
        # The most of each, by IEEE 802.11.
        for security, keys in (("WPA", ("a" * 8, "a" * 63, "0" * 64)),
                               ("SAE", ("a", "\u00e9" * 99)),
                               ("WEP", ("a" * 5, "a" * 13, "0" * 10, "F" * 26, "a" * 29))):
            for key in keys:
                self.assertIn(f";P:{key};", helpers.make_wifi_data("a" * 32, key, security))

    def test_places(self):
        # RFC 5870, "Simple 3-dimensional", "URI Comparison" and others.
        for lat, lng, text in ((13.4125, 103.8667, "13.4125,103.8667"), (90, -22.43, "90,-22.43"),
                               (66, 30, "66,30"), (-0.0, 1e-9, "0,0"), (-1e-9, 180, "0,180"),
                               (48.2010, decimal.Decimal("16.3695"), "48.201,16.3695"),
                               (decimal.Decimal("-90"), -180.0, "-90,-180")):
            self.assertEqual(helpers.make_geo_data(lat, lng), f"geo:{text}")

    def test_emails(self):
        for given, text in EMAILS:
            self.assertEqual(helpers.make_email_data(**given), f"mailto:{text}")
        self.assertEqual(helpers.make_email_data("a@b.c", cc=[], bcc="", body="x"),
                         "mailto:a@b.c?body=x")
        self.assertEqual(helpers.make_email_data("a@[192.0.2.1]", subject=""),
                         "mailto:a@%5B192.0.2.1%5D?subject=")

    def test_cards(self):
        for given, line in CARDS:
            lines = helpers.make_vcard_data(**{**PERSON, **given}).split("\r\n")
            self.assertIn(line, lines)
            self.assertEqual((lines[0], lines[1], lines[-2:]),
                             ("BEGIN:VCARD", "VERSION:3.0", ["END:VCARD", ""]))
        # NTT DOCOMO, "Address book registration": the names of these two fields.
        self.assertEqual(
            helpers.make_mecard_data("a", videophone="1" * 24, memo="b\nc", pobox="d,e"),
            f"MECARD:N:a;TEL-AV:{'1' * 24};ADR:d\\,e,,,,,,;NOTE:b\nc;;")
        self.assertEqual(
            helpers.make_mecard_data("a", birthday=datetime.datetime(2000, 2, 29, 1)),
            helpers.make_mecard_data("a", birthday="20000229", email=None, url=[], phone=""))

    def test_payments(self):
        # The example of EPC069-12, in version 002.
        self.assertEqual(
            helpers.make_epc_qr_data("Red Cross of Belgium", "BE72 0000 0000 1616", 1,
                                     "Urgency fund", bic="BPOTBEB1", purpose="CHAR",
                                     information="Sample QR code"),
            "BCD\n002\n1\nSCT\nBPOTBEB1\nRed Cross of Belgium\nBE72000000001616\nEUR1\nCHAR\n\n"
            "Urgency fund\nSample QR code")
        for amount, text in ((0.01, "0.01"), (1e8, "100000000"), ("999999999.99", "999999999.99"),
                             (12.3, "12.3"), (0.1 + 0.2, "0.3"), ("7.50", "7.5"), (10, "10"),
                             (decimal.Decimal("1E+2"), "100"), (decimal.Decimal("1.500"), "1.5")):
            data = helpers.make_epc_qr_data(**{**PAYMENT, "amount": amount})
            self.assertEqual(data.split("\n")[7], f"EUR{text}")
            self.assertEqual(data.split("\n")[8:], [])
        self.assertEqual(helpers.make_epc_qr_data("a", "be72000000001616", 1, bic="bpotbeb1xxx",
                                                  reference="rf18 5390 0754 7034"),
                         "BCD\n002\n1\nSCT\nBPOTBEB1XXX\na\nBE72000000001616\nEUR1\n\n"
                         "RF18539007547034")

    def test_symbols(self):
        for call, given, text in ROWS:
            if call != "make_epc_qr_data":
                make = getattr(helpers, call.replace("make_make", "make").replace("_data", ""))
                self.assertEqual(make(**given), sicklespan.make(text))
        options = {"error": "M", "max_version": 13, "boost_error": False}
        # In Latin-1 these are pairs of the Kanji mode.
        for more in ({}, {"text": "caf\u00e9"}, {"text": "\u00e9a" * 20, "encoding": 2},
                     {"text": "\u0160", "encoding": "ISO-8859-2"}, {"encoding": 2}):
            symbol = helpers.make_epc_qr(**PAYMENT, **more)
            data = helpers.make_epc_qr_data(**PAYMENT, **more)
            if "encoding" in more:
                charset = {2: "iso-8859-1"}.get(more["encoding"], more["encoding"])
                wanted = sicklespan.make(data.encode(charset), kanji=False, **options)
            else:
                wanted = (sicklespan.text if "text" in more else sicklespan.make)(data, **options)
            self.assertEqual((symbol, symbol.level), (wanted, "M"))
        # Version 13 holds 331 bytes at level M.
        full = {"name": "n" * 70, "text": "t" * 140, "information": "i" * 70, "bic": "BPOTBEB1"}
        data = helpers.make_epc_qr_data(**{**PAYMENT, **full})
        self.assertEqual((len(data), helpers.make_epc_qr(**{**PAYMENT, **full}).version), (329, 13))
        with self.assertRaises(sicklespan.InvalidFieldError) as raised:
            helpers.make_epc_qr(**{**PAYMENT, **full, "bic": "BPOTBEB1XXX"})
        self.assertEqual(raised.exception.field, "text")
        with self.assertRaises(sicklespan.DataTooLongError):
            helpers.make_mecard("a", memo="b" * 3000)

    def test_readers(self):
        """A reader of each form finds what was given."""
        numbers = random.Random(82)
        for _ in range(300):
            texts = ["".join(numbers.choice("ab;:,\"\\' =&%?/@\u00e9\u3053") for _ in range(8))
                     for _ in range(5)]
            found = reads(helpers.make_wifi_data(texts[0], texts[1], "SAE").partition(":")[2], "")
            self.assertEqual(found, [("T", "SAE"), ("S", texts[0]), ("P", texts[1])])
            card = helpers.make_mecard_data("x" + texts[0], nickname=texts[1], memo=texts[2])
            self.assertEqual(reads(card.partition(":")[2], ""), [
                ("N", "x" + texts[0]), ("NICKNAME", texts[1]), ("NOTE", texts[2])])
            note = f"{texts[0]}\n{texts[1]}"
            lines = helpers.make_vcard_data("x", f"x{texts[2]}", street=texts[3], memo=note,
                                            city=texts[4]).split("\r\n")
            values = dict(it.split(":", 1) for it in lines if it)
            parts = re.findall(r"((?:[^\\;]|\\.)*)(?:;|$)", values["ADR"])[:7]
            plain = [re.sub(r"\\(.)", lambda it: "\n" if it[1] == "n" else it[1], it)
                     for it in (values["FN"], values["NOTE"], *parts)]
            self.assertEqual(plain, [f"x{texts[2]}", note, "", "", texts[3], texts[4], "", "", ""])
            link = helpers.make_email_data("a@b.c", subject=texts[0], body=note)
            address, _, query = link.partition("?")
            self.assertEqual((address, dict(it.split("=") for it in query.split("&")).keys()),
                             ("mailto:a@b.c", {"subject", "body"}))
            self.assertEqual(dict(urllib.parse.parse_qsl(query.replace("+", "%2B"))), {
                "subject": texts[0], "body": note.replace("\n", "\r\n")})

    def test_what_is_wrong(self):
        for call, (needed, rows) in WRONG.items():
            for field, given in rows:
                for name in (call, f"{call}_data"):
                    with self.subTest(name, **given):
                        with self.assertRaises(sicklespan.InvalidFieldError) as raised:
                            getattr(helpers, name)(**{**needed, **given})
                        self.assertEqual(raised.exception.field, field)
                        said = str(raised.exception)
                        self.assertTrue(said.startswith(f"{field} ") and len(said) < 300, said)
        self.assertIsInstance(raised.exception, sicklespan.SicklespanError)
        # A password is in no message.
        with self.assertRaises(sicklespan.InvalidFieldError) as raised:
            helpers.make_wifi("a", "secret", "WPA")
        self.assertNotIn("secret", str(raised.exception))

    def test_arguments_of_other_types(self):
        for call, (needed, _) in WRONG.items():
            make = getattr(helpers, call)
            names = make.__code__.co_varnames[:make.__code__.co_argcount]
            for name in names:
                if name == "hidden":
                    continue
                for wrong in (b"a", 1j, [5]):
                    given = {"lat": 0, "lng": 0} if name in ("lat", "lng") else {}
                    with self.subTest(call, name=name):
                        with self.assertRaises(TypeError) as raised:
                            make(**{**needed, **given, name: wrong})
                        said = str(raised.exception)
                        self.assertTrue(said.startswith(f"{name} is "), said)
            for name in needed:
                if name not in ("lat", "lng", "amount"):
                    with self.assertRaises(sicklespan.InvalidTextError):
                        make(**{**needed, name: "a\ud800"})
        for wrong in (True, None, [1]):
            with self.assertRaises(TypeError) as raised:
                helpers.make_epc_qr("a", "BE72000000001616", wrong)
            self.assertTrue(str(raised.exception).startswith("amount is "), raised.exception)

"""Made texts: of many scripts, with what few sets have, and for several symbols."""

import functools
import random

DIGITS = "0123456789"
ALPHANUMERIC = DIGITS + "ABCDEFGHIJKLMNOPQRSTUVWXYZ $%*+-./:"
# Characters that makers of tables of JIS X 0208 give different numbers.
DIFFER = set("\u301c\uff5e\u2016\u2225\u2212\uff0d\xa2\uffe0\xa3\uffe1\xac\uffe2\u2014\u2015"
             "\\\uff3c")

# The letters of twenty scripts.
SCRIPTS = {
    "Latin": (0xE0, 24), "Greek": (0x3B1, 24), "Cyrillic": (0x430, 32), "Armenian": (0x561, 38),
    "Hebrew": (0x5D0, 27), "Arabic": (0x627, 20), "Devanagari": (0x905, 50), "Bengali": (0x995, 20),
    "Gurmukhi": (0xA15, 20), "Gujarati": (0xA95, 20), "Tamil": (0xBAE, 10), "Telugu": (0xC15, 20),
    "Kannada": (0xC95, 20), "Malayalam": (0xD15, 20), "Thai": (0xE01, 46), "Georgian": (0x10D0, 33),
    "Hangul": (0xAC00, 11172), "Hiragana": (0x3041, 83), "Kanji": (0, 0), "Emoji": (0x1F600, 60),
}

# What the letters above lack: letters, spaces and controls that few sets have, and characters that
# makers of tables number differently.
RARE = {
    "spaces": "\xa0\u2007\u202f\u3000\xad\u200b\ufeff", "Welsh": "\u0175\u0177\u0174\u0176wy",
    "y": "\xff\u0178ye", "Icelandic": "\xde\xfe\xd0\xf0\u0111\u014b\u0167\u016b\u0146\u0137",
    "controls": "".join(map(chr, range(1, 32))) + "\x7f\x80\x85\x9f",
    "signs": "\\~\xa5\u203e$#@[]{}|^`",
    "vendors": "\uff5e\u301c\u2225\u2016\uff0d\u2212\uffe0\xa2\uffe1\xa3\uffe2\xac\uff3c",
    "extensions": "\u2460\u2461\u3231\u2116\u337b\u9ad9\ufa11\u2170\u2252",
    "half width": "\uff71\uff72\uff73\uff8a\uff9e\uff9f\uff65\uff61",
    "marks": "e\u0301a\u0308o\u0302\u20ac\u201e\u201c\u2013\u2026",
    "emoji": "\U0001f468\u200d\U0001f469\u2764\ufe0f\U0001f1e9\U0001f1ea\U0001f44d\U0001f3fd",
}


@functools.cache
def kanji_bytes(c):
    """The two bytes of Shift JIS of a character of the Kanji mode, or None."""
    try:
        pair = c.encode("shift_jis")
    except UnicodeEncodeError:
        return None
    if len(pair) != 2 or c in DIFFER or pair.decode("shift_jis") != c:
        return None
    number = pair[0] << 8 | pair[1]
    return pair if 0x8140 <= number <= 0x9FFC or 0xE040 <= number <= 0xEBBF else None


def lines(n):
    """Makes n lines: of one script, with ASCII words and digits, and of two scripts."""
    chance = random.Random(18004)
    every = [bytes([lead, trail]).decode("shift_jis", "ignore")
             for lead in range(0x88, 0x98) for trail in range(0x9F, 0xFD)]
    kanji = [c for c in every if c and kanji_bytes(c)]
    letters = {name: kanji if name == "Kanji" else list(map(chr, range(first, first + many)))
               for name, (first, many) in SCRIPTS.items()}
    names = list(letters)

    def word(name):
        return "".join(chance.choices(letters[name], k=chance.randint(2, 10)))

    def other():
        kind = chance.choice(["digits", "capitals", "small", "address"])
        return {"digits": "".join(chance.choices(DIGITS, k=chance.randint(1, 9))),
                "capitals": "".join(chance.choices(ALPHANUMERIC[10:36], k=chance.randint(2, 8))),
                "small": "".join(chance.choices("abcdefghijklmnopqrstuvwxyz", k=6)),
                "address": "https://example.com/"}[kind]

    def rare():
        return "".join(chance.choices(chance.choice(list(RARE.values())), k=chance.randint(1, 6)))

    for number in range(n):
        name = names[number % len(names)]
        kind = number // len(names) % 5
        second = chance.choice(names)
        many, most = chance.randint(1, 5), 60
        if number % 25 == 24:
            many, most = 600, chance.randint(100, 3000)
        words = [word(name) if kind == 0 or chance.random() < 0.5 else other() if kind == 1 else
                 rare() if kind > 2 else word(second) for _ in range(many)]
        yield (word(name) + " " + " ".join(words))[:most].strip()


# What a reader that joins the symbols of a sequence may misread: a designator that goes on, and
# plain bytes where another symbol has a Kanji segment. Each has a level and a greatest version.
SEQUENCES = [
    ("ПриветприветприД東京都千代田区霞が", "L", 1),
    ("C:\\Users\\me\\abc 日本語の文日本語の文", "L", 1),
    ("see ~/x for help 日本語の文日本語の文", "L", 1),
    ("Résumé of the manual in English follows. " * 3
     + "Keep the lid closed while the motor runs, and clean the filter each week. " * 7
     + "この機械の説明書を読んでください。" * 17, "M", 8),
    ("Install it to C:\\Program Files\\Tool, and start C:\\Program Files\\Tool\\run.exe. " * 7
     + "この機械の説明書を読んでください。" * 14, "M", 8),
]


def sequences(n):
    """Makes n texts for several symbols, with a level and the greatest version of each symbol."""
    chance = random.Random(18005)
    yield from SEQUENCES[:n]
    for text in lines(3 * n):
        if n <= len(SEQUENCES):
            return
        if len(text) >= 24:
            level, most = chance.choice("LMQ"), chance.choice([2, 3, 5])
            yield text[:500], level, most + 7 * (len(text) > 200)
            n -= 1

"""Payments in euros: the text of which a bank's program makes a SEPA credit transfer."""

import decimal
import re
from typing import Optional, Union

from ._arguments import is_beyond_ascii, type_error
from ._errors import InvalidFieldError
from ._fields import at_most, optional, required, wrong
from ._make import make
from ._make import text as utf8_text
from ._symbol import Symbol

# By their numbers, from 1.
_ENCODINGS = ("utf-8", "iso-8859-1", "iso-8859-2", "iso-8859-4", "iso-8859-5", "iso-8859-7",
              "iso-8859-10", "iso-8859-15")
# The most bytes, and the greatest version, which has room for as many at level M.
_MOST_BYTES, _MAX_VERSION = 331, 13
_CENT = decimal.Decimal("0.01")

Amount = Union[int, float, decimal.Decimal, str]
Encoding = Union[str, int, None]


def _has_right_check(code: str) -> bool:
    """Whether the digits 3 and 4 of a code are its check digits (ISO/IEC 7064, MOD 97-10)."""
    return int("".join(str(int(it, 36)) for it in code[4:] + code[:4])) % 97 == 1


def _iban(value: str) -> str:
    """An account by ISO 13616, without the spaces of its printed form."""
    code = required("iban", value).replace(" ", "")
    if not re.fullmatch(r"[A-Za-z]{2}[0-9]{2}[A-Za-z0-9]{11,30}", code):
        raise wrong("iban", "a country, two digits, and 11 to 30 letters and digits", value)
    if not _has_right_check(code):
        raise wrong("iban", "a number whose check digits are right", value)
    return code.upper()


def _bic(value: Optional[str]) -> str:
    """A bank by ISO 9362."""
    code = optional("bic", value).strip()
    if code and not re.fullmatch(r"[A-Za-z0-9]{4}[A-Za-z]{2}[A-Za-z0-9]{2}(?:[A-Za-z0-9]{3})?",
                                 code):
        raise wrong("bic", "8 or 11 letters and digits, of which two name a country", value)
    return code.upper()


def _reference(value: Optional[str]) -> str:
    """A structured reference; one that begins with RF is one of ISO 11649."""
    code = at_most("reference", 35, optional("reference", value).strip())
    if re.match(r"[Rr][Ff][0-9]{2}", code):
        short = code.replace(" ", "")
        if not re.fullmatch(r"[A-Za-z0-9]{5,25}", short) or not _has_right_check(short):
            raise wrong("reference", "one whose check digits are right", value)
        return short.upper()
    return code


def _amount(value: Amount) -> str:
    if isinstance(value, bool) or not isinstance(value, (int, float, decimal.Decimal, str)):
        raise type_error("amount", "a number", value)
    if isinstance(value, str) and not re.fullmatch(r"[0-9]{1,20}(?:\.[0-9]{1,20})?", value):
        raise wrong("amount", "a number", value)
    # Of a float, what is nearest in cents; NaN and infinity are within no bounds.
    text = f"{value:.2f}" if isinstance(value, float) else value
    with decimal.localcontext(decimal.Context(prec=50)):
        try:
            euros = decimal.Decimal(text)
            is_within = _CENT <= euros <= decimal.Decimal("999999999.99")
        except decimal.InvalidOperation:
            is_within = False
        if not is_within:
            raise wrong("amount", "0.01 to 999999999.99", value)
        if euros % _CENT != 0:
            raise wrong("amount", "a number of whole cents", value)
        return f"EUR{euros:.2f}".rstrip("0").rstrip(".")


def _number_of(encoding: Encoding) -> int:
    """The number of a character set; UTF-8 if none is asked for."""
    if encoding is None:
        return 1
    if isinstance(encoding, str) and encoding.lower() in _ENCODINGS:
        return _ENCODINGS.index(encoding.lower()) + 1
    if isinstance(encoding, int) and 1 <= encoding <= len(_ENCODINGS):
        return encoding
    if isinstance(encoding, (str, int)):
        raise wrong("encoding", f"1 to 8, or {', '.join(_ENCODINGS)}", encoding)
    raise type_error("encoding", "a str or a number", encoding)


def make_epc_qr_data(name: str, iban: str, amount: Amount, text: Optional[str] = None,
                     reference: Optional[str] = None, bic: Optional[str] = None,
                     purpose: Optional[str] = None, encoding: Encoding = None,
                     information: Optional[str] = None) -> str:
    """The text of a payment, as the European Payments Council defines it (EPC069-12, version 002).

    `amount` is 0.01 to 999999999.99 euros in whole cents; a float is rounded to them. It is paid to
    `name`, of at most 70 characters, at the account `iban`, whose check digits are tested, and at
    the bank `bic`, which may be left out. The payment has a `text` of at most 140 characters, or a
    `reference` of at most 35, whose check digits are tested where it begins with RF, or neither. It
    may have a `purpose` of at most four letters and digits, and `information` for who pays, of at
    most 70 characters. `encoding` is the number or the name of the character set, 1 or utf-8 if it
    is None, in which the whole has at most 331 bytes.

        >>> from sicklespan import helpers
        >>> print(helpers.make_epc_qr_data("Red Cross", "BE72 0000 0000 1616", 1, "Urgency fund"))
        BCD
        002
        1
        SCT
        <BLANKLINE>
        Red Cross
        BE72000000001616
        EUR1
        <BLANKLINE>
        <BLANKLINE>
        Urgency fund
        >>> helpers.make_epc_qr_data("Red Cross", "BE72000000001617", 1)
        Traceback (most recent call last):
        sicklespan._errors.InvalidFieldError: iban is a number whose check digits are right, and \
not 'BE72000000001617'
    """
    code = _number_of(encoding)
    receiver = at_most("name", 70, required("name", name).strip())
    remittance = at_most("text", 140, optional("text", text).rstrip())
    note = at_most("information", 70, optional("information", information).rstrip())
    use = optional("purpose", purpose)
    if not re.fullmatch(r"[A-Za-z0-9]{0,4}", use):
        raise wrong("purpose", "at most four letters and digits", purpose)
    invoice = _reference(reference)
    if invoice and remittance:
        raise InvalidFieldError("reference is none where there is a text", "reference")
    lines = ["BCD", "002", str(code), "SCT", _bic(bic), receiver, _iban(iban), _amount(amount),
             use.upper(), invoice, remittance, note]
    data = "\n".join(lines).rstrip("\n")
    _encoded(data, code)
    return data


def _encoded(data: str, code: int) -> bytes:
    """The bytes of a payment in the character set of a number."""
    charset = _ENCODINGS[code - 1]
    try:
        found = data.encode(charset)
    except UnicodeEncodeError as error:
        character = data[error.start]
        raise InvalidFieldError(f"encoding is {charset}, which has no {character!r}",
                                "encoding") from None
    if len(found) > _MOST_BYTES:
        raise InvalidFieldError(
            f"text and the other fields are {_MOST_BYTES} bytes at most, and not {len(found)}",
            "text")
    return found


def make_epc_qr(name: str, iban: str, amount: Amount, text: Optional[str] = None,
                reference: Optional[str] = None, bic: Optional[str] = None,
                purpose: Optional[str] = None, encoding: Encoding = None,
                information: Optional[str] = None) -> Symbol:
    """The symbol of the text that `make_epc_qr_data` returns, at level M and in version 1 to 13.

    In UTF-8 it says so, where it is not ASCII. In another character set it has the bytes of that,
    and says it in the text alone, as EPC069-12 has it.

        >>> from sicklespan import helpers
        >>> symbol = helpers.make_epc_qr("Red Cross", "BE72000000001616", 1, "Urgency fund")
        >>> symbol.level
        'M'
    """
    data = make_epc_qr_data(name, iban, amount, text, reference, bic, purpose, encoding,
                            information)
    code = _number_of(encoding)
    if code > 1:
        return make(_encoded(data, code), "M", max_version=_MAX_VERSION, boost_error=False,
                    kanji=False)
    if is_beyond_ascii(data):
        return utf8_text(data, "M", max_version=_MAX_VERSION, boost_error=False)
    return make(data, "M", max_version=_MAX_VERSION, boost_error=False)

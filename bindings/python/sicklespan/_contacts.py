"""Cards of a person or a firm: MeCard, and vCard."""

import re
from typing import List, Optional

from ._errors import InvalidFieldError
from ._fields import (
    Day, Number, Texts, addresses, date, digits_of_date, escaped, links, number, optional, required,
    several, wrong)
from ._make import make
from ._symbol import Symbol

_CARD_SIGNS = '\\;:"'


def _card_field(name: str, texts: List[str]) -> str:
    return "".join(f"{name}:{escaped(it, _CARD_SIGNS)};" for it in texts if it)


def _phones(name: str, value: Texts) -> List[str]:
    """Telephone numbers of 1 to 24 digits, with what people write between them."""
    found = several(name, value)
    for it in found:
        if not re.fullmatch(r"\+?[0-9 ().*#/-]+", it) or not 1 <= len(
                re.sub(r"[^0-9]", "", it)) <= 24:
            raise wrong(name, "1 to 24 digits, with or without a + before them", it)
    return found


def make_mecard_data(name: str, reading: Optional[str] = None, email: Texts = None,
                     phone: Texts = None, videophone: Texts = None, memo: Optional[str] = None,
                     nickname: Optional[str] = None, birthday: Day = None, url: Texts = None,
                     pobox: Optional[str] = None, roomno: Optional[str] = None,
                     houseno: Optional[str] = None, city: Optional[str] = None,
                     prefecture: Optional[str] = None, zipcode: Optional[str] = None,
                     country: Optional[str] = None) -> str:
    """The MeCard of a person, as NTT DOCOMO defines it ("Address book registration").

    A comma in the name is between the last name and the first, and `reading` says how these are
    spoken, in kana. `email`, `phone`, `videophone` and `url` may be several. A number has 1 to 24
    digits. The birthday is a date, or YYYYMMDD. There is a backslash before each `\\`, `;`, `:` and
    `"`, and before each comma of a part of the address.

        >>> from sicklespan import helpers
        >>> helpers.make_mecard_data("Owen,Sean", email="srowen@example.com", phone="12125551212")
        'MECARD:N:Owen,Sean;TEL:12125551212;EMAIL:srowen@example.com;;'
        >>> helpers.make_mecard_data("Owen", birthday="20260230")
        Traceback (most recent call last):
        sicklespan._errors.InvalidFieldError: birthday is a date, YYYYMMDD, and not '20260230'
    """
    parts = [_card_field("N", [required("name", name)]),
             _card_field("SOUND", [optional("reading", reading)]),
             _card_field("TEL", _phones("phone", phone)),
             _card_field("TEL-AV", _phones("videophone", videophone)),
             _card_field("EMAIL", addresses("email", email)),
             _card_field("NICKNAME", [optional("nickname", nickname)]),
             _card_field("BDAY", [digits_of_date("birthday", birthday)]),
             _card_field("URL", links("url", url))]
    place = (("pobox", pobox), ("roomno", roomno), ("houseno", houseno), ("city", city),
             ("prefecture", prefecture), ("zipcode", zipcode), ("country", country))
    fields = [escaped(optional(it, value), _CARD_SIGNS + ",") for it, value in place]
    if any(fields):
        parts.append(f"ADR:{','.join(fields)};")
    parts.append(_card_field("NOTE", [optional("memo", memo, lines=True)]))
    return f"MECARD:{''.join(parts)};"


def make_mecard(name: str, reading: Optional[str] = None, email: Texts = None,
                phone: Texts = None, videophone: Texts = None, memo: Optional[str] = None,
                nickname: Optional[str] = None, birthday: Day = None, url: Texts = None,
                pobox: Optional[str] = None, roomno: Optional[str] = None,
                houseno: Optional[str] = None, city: Optional[str] = None,
                prefecture: Optional[str] = None, zipcode: Optional[str] = None,
                country: Optional[str] = None) -> Symbol:
    """The symbol of the text that `make_mecard_data` returns.

        >>> from sicklespan import helpers
        >>> symbol = helpers.make_mecard("Owen,Sean", phone="12125551212")
        >>> symbol == sicklespan.make("MECARD:N:Owen,Sean;TEL:12125551212;;")
        True
    """
    return make(make_mecard_data(
        name, reading, email, phone, videophone, memo, nickname, birthday, url, pobox, roomno,
        houseno, city, prefecture, zipcode, country))


def _value(text: str) -> str:
    """A text value of a vCard (RFC 2426, "text-value"), in which a line break is `\\n`."""
    return re.sub(r"\r\n|\r|\n", r"\\n", escaped(text, "\\;,"))


def _lines(name: str, texts: List[str]) -> List[str]:
    return [f"{name}:{it}" for it in texts if it]


def _values(name: str, texts: List[str]) -> List[str]:
    return _lines(name, [_value(it) for it in texts])


def _name(name: str) -> str:
    """The parts of a name; a sign of its own within one has a backslash before it."""
    parts = re.fullmatch(r"((?:[^\\;]|\\[\\;,])*)" + 4 * r"(?:;((?:[^\\;]|\\[\\;,])*))?",
                         required("name", name))
    if parts is None or not any(parts.groups()):
        raise wrong("name", "one to five parts, with semicolons between them", name)
    return str(name)


def _position(lat: Optional[Number], lng: Optional[Number]) -> List[str]:
    if lat is None and lng is None:
        return []
    if lat is None or lng is None:
        missing = "lat" if lat is None else "lng"
        raise InvalidFieldError(f"{missing} is a number, where there is the other", missing)
    # Six decimals, as RFC 2426 asks for.
    return [f"GEO:{number('lat', lat, -90, 90):.6f};{number('lng', lng, -180, 180):.6f}"]


def make_vcard_data(name: str, displayname: str, email: Texts = None, phone: Texts = None,
                    fax: Texts = None, videophone: Texts = None, memo: Optional[str] = None,
                    nickname: Optional[str] = None, birthday: Day = None, url: Texts = None,
                    pobox: Optional[str] = None, street: Optional[str] = None,
                    city: Optional[str] = None, region: Optional[str] = None,
                    zipcode: Optional[str] = None, country: Optional[str] = None,
                    org: Optional[str] = None, lat: Optional[Number] = None,
                    lng: Optional[Number] = None, source: Optional[str] = None, rev: Day = None,
                    title: Texts = None, photo_uri: Texts = None) -> str:
    """The vCard 3.0 of a person or a firm (RFC 2426).

    The name is one to five parts with semicolons between them: the last name, the first, others,
    what stands before it and after it; within a part, a backslash is before a semicolon, a comma or
    a backslash of its own. `displayname` is the name as it is shown. `email`, `phone`, `fax`,
    `videophone`, `url`, `title` and `photo_uri` may be several. `birthday` and `rev`, when the card
    was changed, are dates, with or without a time. `memo` may have line breaks. Lines are not
    folded, and end with a carriage return and a line feed.

        >>> from sicklespan import helpers
        >>> for line in helpers.make_vcard_data("Public;John", "John Public").splitlines():
        ...     print(line)
        BEGIN:VCARD
        VERSION:3.0
        N:Public;John
        FN:John Public
        END:VCARD
        >>> helpers.make_vcard_data("Public;John", "John Public", lat=37.386013)
        Traceback (most recent call last):
        sicklespan._errors.InvalidFieldError: lng is a number, where there is the other
    """
    lines = ["BEGIN:VCARD", "VERSION:3.0", f"N:{_name(name)}",
             f"FN:{_value(required('displayname', displayname))}"]
    lines += _values("ORG", [optional("org", org)])
    lines += _values("EMAIL", addresses("email", email))
    lines += _values("TEL", several("phone", phone))
    lines += _values("TEL;TYPE=FAX", several("fax", fax))
    lines += _values("TEL;TYPE=VIDEO", several("videophone", videophone))
    lines += _lines("URL", links("url", url))
    lines += _values("TITLE", several("title", title))
    lines += _lines("PHOTO;VALUE=uri", links("photo_uri", photo_uri))
    lines += _values("NICKNAME", [optional("nickname", nickname)])
    place = (("pobox", pobox), ("", ""), ("street", street), ("city", city), ("region", region),
             ("zipcode", zipcode), ("country", country))
    fields = [_value(optional(it, value)) for it, value in place]
    lines += [f"ADR:{';'.join(fields)}"] if any(fields) else []
    lines += _lines("BDAY", [date("birthday", birthday)])
    lines += _position(lat, lng)
    lines += _lines("SOURCE", links("source", source))
    lines += _values("NOTE", [optional("memo", memo, lines=True)])
    lines += _lines("REV", [date("rev", rev)])
    return "\r\n".join([*lines, "END:VCARD", ""])


def make_vcard(name: str, displayname: str, email: Texts = None, phone: Texts = None,
               fax: Texts = None, videophone: Texts = None, memo: Optional[str] = None,
               nickname: Optional[str] = None, birthday: Day = None, url: Texts = None,
               pobox: Optional[str] = None, street: Optional[str] = None,
               city: Optional[str] = None, region: Optional[str] = None,
               zipcode: Optional[str] = None, country: Optional[str] = None,
               org: Optional[str] = None, lat: Optional[Number] = None,
               lng: Optional[Number] = None, source: Optional[str] = None, rev: Day = None,
               title: Texts = None, photo_uri: Texts = None) -> Symbol:
    """The symbol of the text that `make_vcard_data` returns.

        >>> from sicklespan import helpers
        >>> symbol = helpers.make_vcard("Public;John", "John Public", phone="+1-213-555-1234")
        >>> symbol.save("card.png")
    """
    return make(make_vcard_data(
        name, displayname, email, phone, fax, videophone, memo, nickname, birthday, url, pobox,
        street, city, region, zipcode, country, org, lat, lng, source, rev, title, photo_uri))

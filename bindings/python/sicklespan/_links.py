"""Texts by which a phone joins a network, shows a place, and writes an e-mail."""

import re
from typing import List, Optional
from urllib.parse import quote

from ._errors import InvalidFieldError
from ._fields import (
    Number, Texts, addresses, decimals, escaped, number, optional, plain, wrong)
from ._make import make
from ._symbol import Symbol

_SECURITY = {"WEP": "WEP", "WPA": "WPA", "SAE": "SAE", "NOPASS": "nopass"}
# By IEEE 802.11: keys of WEP with 40 and 104 bits (and 128 and 232, as some have them), and a pass
# phrase or a key of WPA.
_KEYS = {"WEP": r"(?:[ -~]{5}|[ -~]{13}|[ -~]{16}|[ -~]{29})|"
                r"(?:[0-9A-Fa-f]{10}|[0-9A-Fa-f]{26}|[0-9A-Fa-f]{32}|[0-9A-Fa-f]{58})",
         "WPA": r"[ -~]{8,63}|[0-9A-Fa-f]{64}", "SAE": r"(?s:.+)"}
_SIGNS = '\\;,":'
_WANTED = {"WEP": "5, 13, 16 or 29 characters of ASCII, or twice as many hexadecimal digits",
           "WPA": "8 to 63 characters of ASCII, or 64 hexadecimal digits", "SAE": "a text"}


def make_wifi_data(ssid: str, password: Optional[str] = None, security: Optional[str] = None,
                   hidden: bool = False) -> str:
    """The text by which a phone joins a wireless network.

    `ssid` is its name, of 1 to 32 bytes in UTF-8. `security` is WEP, WPA (of WPA2 and WPA3 too), or
    SAE (of WPA3 alone), and the `password` is as it allows: of WPA 8 to 63 characters of ASCII, or
    64 hexadecimal digits. An open network has no password, and its `security` is None or nopass.
    The fields are those of the WPA3 specification of the Wi-Fi Alliance ("URI format"). In them a
    backslash is before each `\\`, `;`, `,`, `"` and `:`, as ZXing defines it and phones read it.

        >>> from sicklespan import helpers
        >>> helpers.make_wifi_data("mynetwork", "mypassword", "WPA")
        'WIFI:T:WPA;S:mynetwork;P:mypassword;;'
        >>> helpers.make_wifi_data("mynetwork", "short", "WPA")  # doctest: +ELLIPSIS
        Traceback (most recent call last):
        sicklespan._errors.InvalidFieldError: password is 8 to 63 characters of ASCII, or ...
    """
    size = len(plain("ssid", ssid).encode())
    if not 1 <= size <= 32:
        raise InvalidFieldError(f"ssid has 1 to 32 bytes in UTF-8, and not {size}", "ssid")
    kind = None
    if security is not None:
        kind = _SECURITY.get(plain("security", security).upper())
        if kind is None:
            raise wrong("security", "WEP, WPA, SAE or nopass", security)
    key = optional("password", password)
    if kind is None and key:
        raise InvalidFieldError("security is WEP, WPA or SAE where there is a password", "security")
    if kind == "nopass" and key:
        raise InvalidFieldError("password is none where security is nopass", "password")
    if kind in _KEYS and not re.fullmatch(_KEYS[kind], key):
        # What a password is stands in no message.
        raise InvalidFieldError(f"password is {_WANTED[kind]}, where security is {kind}",
                                "password")
    parts = [f"T:{kind};" if kind else "", f"S:{escaped(ssid, _SIGNS)};",
             f"P:{escaped(key, _SIGNS)};" if key else "", "H:true;" if hidden else ""]
    return f"WIFI:{''.join(parts)};"


def make_wifi(ssid: str, password: Optional[str] = None, security: Optional[str] = None,
              hidden: bool = False) -> Symbol:
    """The symbol of the text that `make_wifi_data` returns.

        >>> from sicklespan import helpers
        >>> symbol = helpers.make_wifi("mynetwork", "mypassword", "WPA")
        >>> symbol == sicklespan.make("WIFI:T:WPA;S:mynetwork;P:mypassword;;")
        True
    """
    return make(make_wifi_data(ssid, password, security, hidden))


def make_geo_data(lat: Number, lng: Number) -> str:
    """The URI of a place (RFC 5870): its latitude and its longitude in degrees, in WGS 84.

    They are -90 to 90 and -180 to 180, and are written with eight decimals at most.

        >>> from sicklespan import helpers
        >>> helpers.make_geo_data(13.4125, 103.8667)
        'geo:13.4125,103.8667'
        >>> helpers.make_geo_data(91, 0)
        Traceback (most recent call last):
        sicklespan._errors.InvalidFieldError: lat is a number from -90 to 90, and not 91
    """
    return f"geo:{decimals(number('lat', lat, -90, 90), 8)}," \
           f"{decimals(number('lng', lng, -180, 180), 8)}"


def make_geo(lat: Number, lng: Number) -> Symbol:
    """The symbol of the URI that `make_geo_data` returns.

        >>> from sicklespan import helpers
        >>> helpers.make_geo(13.4125, 103.8667) == sicklespan.make("geo:13.4125,103.8667")
        True
    """
    return make(make_geo_data(lat, lng))


def _address(text: str) -> str:
    """An address within a URI: its one `@` that is no part of a name stays."""
    name, _, domain = text.rpartition("@")
    return f"{quote(name, safe=_UNQUOTED)}@{quote(domain, safe=_UNQUOTED)}"


# Of `some-delims` of RFC 6068 those that are no trouble within an address, a header or HTML.
_UNQUOTED = "!$'*+"


def make_email_data(to: Texts, cc: Texts = None, bcc: Texts = None,
                    subject: Optional[str] = None, body: Optional[str] = None) -> str:
    """The URI by which a phone begins an e-mail (RFC 6068): `mailto:`.

    `to`, `cc` and `bcc` are an address or several. The body may have line breaks.

        >>> from sicklespan import helpers
        >>> helpers.make_email_data("joe@example.com", cc="bob@example.com", body="hello")
        'mailto:joe@example.com?cc=bob@example.com&body=hello'
        >>> helpers.make_email_data("joe")
        Traceback (most recent call last):
        sicklespan._errors.InvalidFieldError: to is an e-mail address, and not 'joe'
    """
    receivers = addresses("to", to)
    if not receivers:
        raise InvalidFieldError("to is an e-mail address, and there is none", "to")
    headers: List[str] = []
    for name, value in (("cc", cc), ("bcc", bcc)):
        found = addresses(name, value)
        if found:
            headers.append(f"{name}={','.join(map(_address, found))}")
    if subject is not None:
        headers.append(f"subject={quote(plain('subject', subject), safe=_UNQUOTED)}")
    if body is not None:
        lines = re.sub(r"\r\n|\r|\n", "\r\n", plain("body", body, lines=True))
        headers.append(f"body={quote(lines, safe=_UNQUOTED)}")
    query = f"?{'&'.join(headers)}" if headers else ""
    return f"mailto:{','.join(map(_address, receivers))}{query}"


def make_email(to: Texts, cc: Texts = None, bcc: Texts = None, subject: Optional[str] = None,
               body: Optional[str] = None) -> Symbol:
    """The symbol of the URI that `make_email_data` returns.

        >>> from sicklespan import helpers
        >>> helpers.make_email("joe@example.com") == sicklespan.make("mailto:joe@example.com")
        True
    """
    return make(make_email_data(to, cc, bcc, subject, body))

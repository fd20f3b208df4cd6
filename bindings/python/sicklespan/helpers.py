"""Symbols that a phone acts on: it joins a network, saves a contact, shows a place, writes an
e-mail, or makes a payment.

Each function has one beside it whose name ends in `_data`, which returns the text, for `make` with
a level, a version or what else it takes. A value that its specification does not allow is an
`InvalidFieldError`, which names the parameter in `field`.

    >>> from sicklespan import helpers
    >>> helpers.make_wifi("mynetwork", "mypassword", "WPA").save("network.png")
    >>> text = helpers.make_geo_data(48.2010, 16.3695)
    >>> sicklespan.make(text, "H").level
    'H'
"""

from ._contacts import make_mecard, make_mecard_data, make_vcard, make_vcard_data
from ._links import (
    make_email, make_email_data, make_geo, make_geo_data, make_wifi, make_wifi_data)
from ._payments import make_epc_qr, make_epc_qr_data

# The name that segno has for it.
make_make_email_data = make_email_data

__all__ = [
    "make_email", "make_email_data", "make_epc_qr", "make_epc_qr_data", "make_geo",
    "make_geo_data", "make_make_email_data", "make_mecard", "make_mecard_data", "make_vcard",
    "make_vcard_data", "make_wifi", "make_wifi_data"]

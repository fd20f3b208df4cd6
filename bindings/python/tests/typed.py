"""A typed caller of every call, which mypy reads by `--strict` and nobody runs: what is right has a
type, and what is wrong is an error that is expected here (else mypy names the comment)."""

import datetime
import decimal
import io
import pathlib
from typing import Iterator, List, Optional, Tuple, Union

import sicklespan
from sicklespan import helpers


def symbols() -> List[sicklespan.Symbol]:
    made = [sicklespan.make("a", "L", 1, min_version=1, max_version=40, micro=None, kanji=True),
            sicklespan.make(b"a", boost_error=False), sicklespan.make(bytearray(b"a"), kanji=False),
            sicklespan.text("a", error="Q"), sicklespan.make_qr("a"), sicklespan.make_micro("1"),
            sicklespan.micro("1", "M"), sicklespan.gs1("(10)A"), sicklespan.gs1_unchecked("(10)A"),
            sicklespan.link("(01)1", "a.b"), sicklespan.elements(b"10A")]
    parts: sicklespan.SymbolSequence = sicklespan.sequence("abc", [1, 2], max_version=5)
    whole: List[sicklespan.Symbol] = sicklespan.make_sequence("abc", symbol_count=2)
    parts.save("part-%d.png", scale=2, at=None)
    parts.save(io.BytesIO(), "zpl", at=(1, 2))
    parts.terminal(io.StringIO(), 1, inverted=True)
    first: sicklespan.Symbol = parts[0]
    link: str = sicklespan.link_text("(01)1", "a.b")
    return [*made, *parts, *whole, first, sicklespan.make(link)]


def symbol(it: sicklespan.Symbol) -> Tuple[Union[int, str], str, int, bool]:
    rows: Iterator[bytearray] = it.matrix_iter(scale=2, border=1)
    matrix: Tuple[bytearray, ...] = it.matrix
    size: Tuple[int, int] = it.symbol_size(1, border=None)
    data: List[bytes] = [it.picture("zpl", at=(1, 2)), it.png(dpi=300), it._repr_png_(), *matrix]
    text: List[str] = [it.svg(module_mm=0.5), it.svg_inline(scale=2), it.svg_data_uri(border=1),
                       it.png_data_uri(), it._repr_svg_(), it.error, it.designator]
    it.save(pathlib.Path("a.png"), scale=2, border=1, module_mm=0.5)
    it.save(io.BytesIO(), "terminal", inverted=True)
    it.terminal(io.StringIO(), border=1)
    it.show(delete_after=None, scale=3)
    it.to_pil(scale=2, border=1, dpi=300).save("a.gif")
    print(rows, size, data, text, it.width, it.default_border_size, it.level)
    return it.version, it.level, it.mask, it.is_micro


def texts() -> List[str]:
    day = datetime.date(2026, 1, 1)
    return [helpers.make_wifi_data("a", "a password", security="WPA", hidden=True),
            helpers.make_geo_data(1, decimal.Decimal("2.5")),
            helpers.make_email_data(["a@b.c"], cc="d@e.f", subject="g"),
            helpers.make_make_email_data("a@b.c", bcc=("d@e.f",)),
            helpers.make_mecard_data("a", phone=["1", "2"], birthday=day),
            helpers.make_vcard_data("a", "b", lat=1.5, lng=2, rev=day, title=("c", "d")),
            helpers.make_epc_qr_data("a", "b", decimal.Decimal(1), encoding=1, information="c")]


def drawn() -> List[sicklespan.Symbol]:
    return [helpers.make_wifi("a"), helpers.make_geo(1, 2), helpers.make_email("a@b.c"),
            helpers.make_mecard("a", memo="b"), helpers.make_vcard("a", "b", url=["c"]),
            helpers.make_epc_qr("a", "b", "1.50", reference="c")]


def errors(error: sicklespan.SicklespanError) -> Optional[str]:
    if isinstance(error, sicklespan.InvalidFieldError):
        return error.field
    if isinstance(error, sicklespan.InvalidSettingError):
        return error.setting
    return error.name if isinstance(error, sicklespan.MissingModuleError) else None


def wrong(it: sicklespan.Symbol) -> None:
    sicklespan.make(5)  # type: ignore[arg-type]
    sicklespan.make("a", 1)  # type: ignore[arg-type]
    sicklespan.make("a", version="M1")  # type: ignore[arg-type]
    sicklespan.text(b"a")  # type: ignore[arg-type]
    sicklespan.sequence("a", ["1"])  # type: ignore[list-item]
    it.save(None, "png")  # type: ignore[arg-type]
    it.to_pil(scale="2")  # type: ignore[arg-type]
    it.to_pil(2)  # type: ignore[misc]
    it.picture("png", colour="red")  # type: ignore[call-arg]
    sicklespan.sequence("a").save("a-%d.png", at=1)  # type: ignore[arg-type]
    helpers.make_wifi(5)  # type: ignore[arg-type]
    helpers.make_geo("1", 2)  # type: ignore[arg-type]
    helpers.make_mecard("a", phone=5)  # type: ignore[arg-type]
    helpers.make_vcard("a")  # type: ignore[call-arg]
    helpers.make_epc_qr("a", "b", None)  # type: ignore[arg-type]

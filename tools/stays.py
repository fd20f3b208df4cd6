"""Sentences that were asked for, by page, and stay: how the port departs from the original, what is
trusted, what is only tested, and what is not promised. tools/quotes looks for each, however its
lines are broken."""

STAYS = {
    "README.md": (
        "That a symbol is returned where memory is ample is tested, not proved.",
        "*False*: that no symbol is smaller, where pairs of the Kanji mode can stand.",
        "*Only tested*: that failing allocations are reported and leak nothing",
        "which files `qrlabel` opens; the border in C.",
        "*Trusted*: the kit (compiler, prover, standard library, ported crates) and the C library.",
        "*Not claimed*: anything about cameras, scanners or damaged symbols; speed;",
        "that the tables of block sizes are the standard's",
    ),
    "docs/DECISIONS.md": (
        "**Every call that needs memory takes an allocator**",
        "**What panics in the original, or computes on, is a `requires`**",
        "**More than 7089 bytes are `DataTooLong` before any allocation**",
        "**Factories are gone from `plugin`**",
        "no call is promised to be a `const fn`",
        "Not carried are floating point, `serde`, `no_std` and the benchmark functions.",
        "**Where the Rust code differs from its own documentation the port follows the code**",
        "and on `itoa` of the kit beside `arrayvec` and `thiserror`",
        "**Why a device failed is asked of the traits above `Source` and `Sink`**",
        "**A plan merges parsed segments and never splits one**",
        "in one pass and within 36 comparisons a segment for data of every length.",
        "The original has a quadratic body for up to 32 segments, and there is none here.",
        "**`Comparisons::new` takes a blank**",
        "**The 18 generators that symbols have come from a table**",
        "The tables of powers and logarithms of the field, by which the original multiplies, serve "
        "other degrees.",
        "**No scoring calls `count_dark` and `count_squares`**: the choice of a mask rests on the "
        "kernel that they share with it",
        "`plain_reader` promises safety alone",
        "No proof finds that, nor a body that always returns `OutOfMemory`; runs do",
    ),
    "docs/BINDINGS.md": ("The compilers, binutils and the linker are trusted",),
    "docs/qrlabel.1": ("Which file those bytes are written to is tested, and not proved.",),
}

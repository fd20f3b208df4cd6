"""Mistakes of a crate: reading them, planting several at once, and what a check says of them."""

import collections
import glob
import os
import re

# A mistake: its folder (must-fail or mistakes), its crate and name, its file and its pairs of texts.
Mistake = collections.namedtuple("Mistake", "folder crate name file pairs")
# A goal that a check leaves open: its function, its name, and what the check says of it.
Goal = collections.namedtuple("Goal", "function name says")

FALSE, SEARCHED, ANSWER = "false", "no proof", "answer"
FUNCTION = re.compile(
    r'^( *)(?:pub(?:\([\w:]+\))? )?(?:const )?(?:unsafe )?(?:extern "C" )?fn (\w+)', re.M)
ITEM = re.compile(r"^ *(?:pub(?:\([\w:]+\))? )?(?:static|const) (\w+)\s*:", re.M)
PLACE = re.compile(r"^(?:note: )?(?:\./)?((?:src|specs|proofs)/\S+?):(\d+):\d+: (.*)$", re.M)
MAY_BE_FALSE = re.compile(r"^note: `([^`]+)` of proofs/(\S+)\.antt may be false", re.M)
ALLOWED = "the facts known there allow values at which this goal is false"
# A proof file that names what a mistake took away, and what cites that proof.
GONE = re.compile(r"(?:\./)?proofs/.*(has no field|is not in scope|has no `|was not admitted)")
UNREAD = re.compile(r"is not in scope|has no field|is no name|operand is missing|expected the end|"
                    r"cannot continue")


def text_of(path):
    with open(path, encoding="utf-8") as it:
        return it.read()


def pairs_of(text):
    """The pairs of an edit, in their order."""
    found, old = [], None
    for line in text.split("\n"):
        if line.startswith("old: "):
            old = line[5:]
        elif line.startswith("new: ") or line == "new:":
            found.append((old, line[5:]))
    return found


def mistakes(root, crate="*", folder="*"):
    """The mistakes of a crate, or of all, in the order of their names."""
    found = []
    for path in glob.glob(f"{root}/crates/{crate}/{folder}/*.edit"):
        kind, name = path.split("/")[-2], os.path.basename(path)[:-5]
        if kind in ("must-fail", "mistakes"):
            text = text_of(path)
            files = re.findall(r"^file: (\S+)$", text, re.M)
            found.append(Mistake(kind, path.split("/")[-3], name, " ".join(files), pairs_of(text)))
    return sorted(found, key=lambda it: (it.crate, it.name, it.folder))


def planted(text, pairs):
    """A text with each pair's old text replaced, which must stand in it once; else why not."""
    for old, new in pairs:
        if old is None or text.count(old) != 1:
            return None, f"its old text stands {text.count(old or '')} times, and not once: {old}"
        text = text.replace(old, new)
    return text, None


def extents(text):
    """The first and last place of each function, with its name."""
    for found in FUNCTION.finditer(text):
        end = re.compile(rf"^{found[1]}\}}", re.M).search(text, found.end())
        line_end = text.find("\n", found.start())
        is_short = text[found.start():line_end].endswith("}")
        yield found.start(), line_end if is_short or not end else end.end(), found[2]


def function_at(text, place):
    """The function in which a place stands, with the attributes and the comment above it."""
    inside = [name for start, end, name in extents(text) if start <= place < end]
    return inside[-1] if inside else None


def function_of_line(text, line):
    """The function of a line, or that whose head is the next one."""
    lines = text.split("\n")
    while line < len(lines) and lines[line - 1].lstrip().startswith(("#[", "///")):
        line += 1
    place = sum(len(it) + 1 for it in lines[:line - 1]) + len(lines[line - 1])
    return function_at(text, place) or (FUNCTION.findall(text[:place]) or [("", "")])[-1][1]


def users_of(item, sources):
    """The functions of a crate that name a constant, or a constant that does; None where it stands
    in none."""
    names, found, size = {item}, set(), 0
    while len(names) > size:
        size = len(names)
        for text in sources.values():
            for name in list(names):
                for it in re.finditer(rf"\b{name}\b", text):
                    function = function_at(text, it.start())
                    if function:
                        found.add(function)
                    else:
                        names.update(ITEM.findall(text[:it.start()])[-1:])
    return found or None


def functions_of(mistake, sources):
    """The functions that a mistake touches: that in which it stands, or those that use the
    constant in which it stands; None where it may touch any."""
    text, found = sources.get(mistake.file, ""), set()
    for old, _new in mistake.pairs:
        place = text.find(old)
        if place < 0:
            continue
        function = function_at(text, place + len(old) - len(old.lstrip()))
        if function:
            found.add(function)
            continue
        items = ITEM.findall(text[:place + len(old)])
        users = users_of(items[-1], sources) if items else None
        if not users:
            return None
        found |= users
    return found or None


def groups_of(tried, sources, rows, most):
    """Mistakes in groups: those of a group touch different functions, and their texts can be
    planted together. Those that cannot be planted at all come back with the reason."""
    groups, bad = [], []
    for it in tried:
        _text, why = planted(sources.get(it.file, ""), it.pairs)
        if why:
            bad.append((it, why))
            continue
        touched = functions_of(it, sources)
        if touched is not None and it.name in rows:
            touched = touched | {rows[it.name].function}
        for group in groups:
            if fits(it, touched, group, most):
                break
        else:
            group = {"mistakes": [], "touched": set(), "texts": dict(sources), "is_full": False}
            groups.append(group)
        group["mistakes"].append(it)
        group["touched"] |= touched or set()
        group["is_full"] = touched is None
        group["texts"][it.file] = planted(group["texts"][it.file], it.pairs)[0]
    return [(group["mistakes"], group["texts"]) for group in groups], bad


def fits(mistake, touched, group, most):
    """Whether a mistake can stand in a group."""
    if touched is None or group["is_full"] or len(group["mistakes"]) >= most:
        return False
    return (not touched & group["touched"]
            and planted(group["texts"][mistake.file], mistake.pairs)[1] is None)


def name_of_proof(path):
    """The function or the file of lemmas that a file of proofs is of."""
    parts = path.rsplit(".antt", 1)[0].split("/")
    return parts[-2] if len(parts) > 1 and parts[-2] != "proofs" else parts[-1]


def goals_in(said, texts):
    """The goals that a check leaves open, in its order. One that is told by the call or the tactic
    with its own name in brackets comes by both names, its own first."""
    false = {(name_of_proof(path), name) for name, path in MAY_BE_FALSE.findall(said)}
    found = []
    for path, line, words in PLACE.findall(said):
        names = [*re.findall(r"\(`([^`]+)`\)", words)[:1], *re.findall(r"`([^`]+)`", words)[:1]]
        is_open = words.startswith("error: ") or path.startswith("src/")
        if not names or not is_open or GONE.match(f"{path}: {words}"):
            continue
        if path.startswith("src/"):
            function = function_of_line(texts.get(path, ""), int(line))
        else:
            function = name_of_proof(path)
        said_of_it = ANSWER if path.startswith("proofs/") else SEARCHED
        if ALLOWED in words or any((function, it) in false for it in names):
            said_of_it = FALSE
        found += [Goal(function, it, said_of_it) for it in dict.fromkeys(names)]
    return found


def unread(said, texts):
    """A line that says that the check could not read a text, if there is one."""
    for path, _line, words in PLACE.findall(said):
        if path.startswith(("src/", "specs/")) and words.startswith("error: "):
            if not re.match(r"error: `", words) or UNREAD.search(re.sub(r"`[^`]*`", "", words)):
                return f"{path}: {words[:200]}"
    return None

"""What tools/test-gate tries of tools/quick and tools/tree.

tools/quick runs stubs of the gate's parts, and one of `rt` over the crates as they are: each
program with its words, input and output, and the tests of each crate that has some. tools/tree
looks at a small repository with one fault at a time, and at what is left in it.
"""

import glob
import os
import re
import shutil
import subprocess
import tempfile

ROOT = os.path.dirname(os.path.dirname(os.path.abspath(__file__)))
GREEN = "echo 'working'; echo '7 passed, 0 failed'"
LINK = "a link to page.md"


def parts():
    """The parts that .ci/run names."""
    with open(f"{ROOT}/.ci/run", encoding="utf-8") as it:
        words = re.search(r"^parts=\((.*?)\)$", it.read(), re.M | re.S)[1]
    return [it.strip("'") for it in re.findall(r"'[^']+'|\S+", words)]


def plant(room, files):
    """Writes files; None removes one."""
    for name, text in files.items():
        path = f"{room}/{name}"
        os.makedirs(os.path.dirname(path), exist_ok=True)
        if text is None:
            os.remove(path)
        elif text == LINK:
            os.symlink("page.md", path)
        else:
            with open(path, "wb") as it:
                it.write(text if isinstance(text, bytes) else text.encode())


# A stub of `rt`: a test passes three cases, and a program writes what it reads and its words, then
# what its crate says.
RT = """if [ "$2" = --test ]; then echo 'test result: ok. 3 passed; 0 failed'; exit 0; fi
while [ "$1" != -- ]; do shift; done
shift
cat > read || exit
for word; do echo "$word"; done > words
cat stdout
"""

# What can go wrong under tools/quick: the part that it is of, and the stub of `rt`, or of the part.
QUICK_FAULTS = {
    "a program that writes something else": ("program qrtext", "echo other"),
    "a program that writes nothing": ("program bench_jobs", "true"),
    "a program that fails": ("program qrlabel", "cat stdout; exit 1"),
    "a test that fails": ("tests layer_tests", "echo 'test result: FAILED. 2 passed; 1 failed'"),
    "a test that is killed": ("tests grid_tests", "kill -KILL $$"),
    "a test that passes none": ("tests qrcode_tests", "echo '0 passed; 0 failed'"),
    "a part that fails": ("tools/quotes", "echo '7 passed, 1 failed'; exit 1"),
    "a part that is killed": ("tools/definitions", "kill -KILL $$"),
    "what is left behind": ("tools/tree --clean", "echo '0 passed, 1 failed'; exit 1"),
    "the library": ("bindings/test", "echo '7 passed, 1 failed'; exit 1"),
}


def quick_crates():
    """The crates that are programs, and those that have tests."""
    roots = glob.glob(f"{ROOT}/crates/*/src/main.rt")
    programs = sorted(os.path.relpath(it, f"{ROOT}/crates").split("/")[0] for it in roots)
    with_tests = set()
    for path in glob.glob(f"{ROOT}/crates/*/src/**/*.rt", recursive=True):
        with open(path, encoding="utf-8") as it:
            if "#[test]" in it.read():
                with_tests.add(os.path.relpath(path, f"{ROOT}/crates").split("/")[0])
    return programs, sorted(with_tests)


def quick_parts():
    """The parts of the gate that tools/quick runs: those before `rt ci`, and what it ends with."""
    named = parts()
    return [*named[:named.index("rt ci")], "tools/tree --clean"]


def quick_stub(path, text):
    """Writes a script, or more of it."""
    os.makedirs(os.path.dirname(path), exist_ok=True)
    is_new = not os.path.exists(path)
    with open(path, "a", encoding="utf-8") as it:
        it.write("#!/bin/sh\n" if is_new else "")
        it.write(f"{text}\n")
    os.chmod(path, 0o755)


def quick_room(room, faulty, has_library):
    """Lays stubs around a copy of tools/quick; returns the rows that it has to print."""
    programs, with_tests = quick_crates()
    named = [*quick_parts(), *(["bindings/test"] if has_library else [])]
    for path in (".ci/run", "tools/quick"):
        os.makedirs(os.path.dirname(f"{room}/{path}"))
        shutil.copy(f"{ROOT}/{path}", f"{room}/{path}")
    stub = {part: GREEN for part in named}
    if faulty and "/" in faulty[0]:
        stub[faulty[0]] = faulty[1]
    for part, text in stub.items():
        command, _, words = part.partition(" ")
        quick_stub(f"{room}/{command}", f'if [ "$*" = "{words}" ]; then {text}; exit; fi')
    if has_library:
        plant(room, {"bindings/out/libsicklespan.a": "", "bindings/c/test.c": ""})
    for crate in {*programs, *with_tests}:
        for name in ("args", "stdin", "stdout"):
            if os.path.exists(f"{ROOT}/crates/{crate}/{name}"):
                with open(f"{ROOT}/crates/{crate}/{name}", "rb") as it:
                    plant(room, {f"crates/{crate}/{name}": it.read()})
    plant(room, {f"crates/{crate}/src/main.rt": "" for crate in programs})
    plant(room, {f"crates/{crate}/src/some_tests.rt": "#[test]\n" for crate in with_tests})
    if faulty and "/" not in faulty[0]:
        kind, crate = faulty[0].split()
        is_test = f'{"" if kind == "tests" else "! "}[ "$2" = --test ]'
        meant = f"[ ${{PWD##*/}} = {crate} ] && {is_test}"
        quick_stub(f"{room}/path/rt", f"if {meant}; then {faulty[1]}; exit; fi")
    quick_stub(f"{room}/path/rt", RT)
    return {**{it: 7 for it in named}, **{f"program {it}": 1 for it in programs},
            **{f"tests {it}": 3 for it in with_tests}}


def quick_fault(faulty, has_library=True):
    """What is wrong with what tools/quick says; None where nothing is."""
    with tempfile.TemporaryDirectory() as room:
        rows = quick_room(room, faulty, has_library)
        names = {"PATH": f"{room}/path:/usr/bin:/bin", "HOME": room}
        how = {"env": names, "capture_output": True, "text": True, "timeout": 60}
        ran = subprocess.run([f"{room}/tools/quick"], **how)
        lines = ran.stdout.rstrip("\n").split("\n")
        if faulty:
            named = re.search(rf"^{faulty[0]}: \d+ passed, 1 failed$", ran.stdout, re.M)
            good = named and ran.returncode != 0 and lines[-1].endswith(", 1 failed")
            return None if good else f"status {ran.returncode}, {lines[-1]!r}"
        if (ran.returncode, lines[-1]) != (0, f"{sum(rows.values())} passed, 0 failed"):
            return f"status {ran.returncode}, {lines[-1]!r} in place of {sum(rows.values())}"
        told = re.findall(r"^(\S.*): (\d+) passed, 0 failed$", ran.stdout, re.M)
        if sorted(told) != sorted((name, str(count)) for name, count in rows.items()):
            return f"it runs {told!r}, and not {rows!r}"
        for crate in quick_crates()[0]:
            for name, kept in (("stdin", "read"), ("args", "words")):
                given = f"{ROOT}/crates/{crate}/{name}"
                with open(f"{room}/crates/{crate}/{kept}", "rb") as it:
                    read = it.read()
                with open(given if os.path.exists(given) else os.devnull, "rb") as it:
                    if it.read() != read:
                        return f"{crate} is not given its {name}"
    return None


# A repository in which tools/tree finds nothing wrong.
IMPORTS = """//! Imports in each way: `Gone` stands here.
ghost use Rattle.std.specs.Prelude.{◌≤◌, length as length_of};
use low::{sizes::{self, Sized}, Kept as Known, Small};
use low::{of, Counted};
pub use low::Shown;
use Known::{First};

pub fn first(it: Small, many: &Sized) -> Known
    ensures { length_of it.now ≤ 3 }
{
    println!("https://{of} Gone"); // Gone
    if many.count() > sizes::LEAST { First('"') } else { First('x') }
}
"""
LOW = """//! What the other stands on.
pub trait Counted {
    fn count(&self) -> usize;
}
"""
TREE = {
    ".gitignore": "out/\n*.part\n",
    "crates.txt": "low:\n# Two crates.\nhigh staticlib: low\n",
    "crates/low/src/lib.rt": LOW,
    "crates/high/src/lib.rt": IMPORTS,
    "docs/page.md": "# Page\n\n    qrlabel -o ~/hello.png https://example.com/home/page\n",
    "bindings/build": "#!/bin/sh\n",
}


def of_high(text):
    """The tree, with another line in the crate `high`."""
    return {"crates/high/src/lib.rt": f"{IMPORTS}{text}\n"}


# What can go wrong under tools/tree: the files that are changed or added, and the row that fails.
TREE_FAULTS = {
    "no text": ({"docs/page.md": b"\xff\n"}, "texts in UTF-8"),
    "a zero byte": ({"docs/page.md": b"\0\n"}, "texts in UTF-8"),
    "a link": ({"docs/link.md": LINK}, "texts in UTF-8"),
    "a long file": ({"docs/page.md": "word\n" * 40_000}, "sizes"),
    **{f"a file in {folder}": ({f"crates/low/{folder}/page.md": ""}, "no product of a build")
       for folder in ("out", "target", "dist", "build", "__pycache__", "a.egg-info",
                      "node_modules")},
    "a file that is ignored": ({"docs/page.part": ""}, "no product of a build"),
    **{f"a path of {folder}": ({"docs/page.md": f"See '/{folder}/it'.\n"}, "no path of a machine")
       for folder in ("root", "home/one", "tmp", "var/tmp", "work")},
    **{f"a line of {mark * 7}": ({"docs/page.md": f"one\n{mark * 7}{more}\ntwo\n"},
                                "no conflict marker")
       for mark, more in (("<", " HEAD"), ("|", " base"), ("=", ""), (">", " theirs"))},
    **{f"U+{code:04X}": ({"docs/page.md": f"one{chr(code)}two\n"}, "no control of direction")
       for code in (0x61C, 0x200E, 0x200F, *range(0x202A, 0x202F), *range(0x2066, 0x206A))},
    "a folder without a line": ({"crates/new/src/lib.rt": ""}, "crates"),
    "a line without a folder": ({"crates.txt": TREE["crates.txt"] + "gone:\n"}, "crates"),
    "two lines of a crate": ({"crates.txt": TREE["crates.txt"] + "low:\n"}, "crates"),
    "a dependency that is not named": ({"crates.txt": "low: more\nhigh: low\n",
                                        "crates/low/src/lib.rt": f"{LOW}// more::Than\n"},
                                       "dependencies"),
    **{f"an import of {name}": (of_high(text), "imports") for name, text in {
        "a name": "use low::Gone;",
        "a name in braces": "use low::{of, inner::{Small, Gone}};",
        "a name by another": "use low::Small as Gone;",
        "a ghost name": "ghost use Rattle.low.specs.Sizes.{Gone};",
        "an operator": "ghost use Rattle.std.specs.Prelude.{◌∷◌};",
        "itself": "use low::gone::{self};",
    }.items()},
    "a trait of which nothing is called": ({"crates/high/src/lib.rt":
                                            IMPORTS.replace("many.count()", "3")}, "imports"),
}


def tree_run(room, *words, **names):
    """The exit status of tools/tree, and its lines."""
    kept = {name: it for name, it in os.environ.items() if not name.startswith(("CI_", "GIT_"))}
    how = {"env": {**kept, **names}, "capture_output": True, "text": True}
    ran = subprocess.run([f"{room}/tools/tree", *words], **how)
    return ran.returncode, ran.stdout.rstrip("\n").split("\n")


def tree_room(room, files):
    """Makes a repository of TREE, with these files, around a copy of tools/tree."""
    plant(room, {**TREE, **files})
    os.makedirs(f"{room}/tools")
    shutil.copy(f"{ROOT}/tools/tree", f"{room}/tools/tree")
    who = ["-c", "user.name=one", "-c", "user.email=one@example.com"]
    for words in (["init", "-q"], ["add", "-A", "-f"], [*who, "commit", "-q", "-m", "One"]):
        subprocess.run(["git", *words], cwd=room, check=True)


def tree_fault(files, row):
    """What is wrong with what tools/tree says of TREE with these files; no row: it has to pass."""
    with tempfile.TemporaryDirectory() as room:
        tree_room(room, files)
        status, lines = tree_run(room)
    count = re.fullmatch(r"([1-9]\d*) passed, (\d+) failed", lines[-1])
    if row is None:
        return None if status == 0 and count and count[2] == "0" else f"{lines!r}"
    others = [it for it in lines[:-1] if not it.startswith(f"FAILED: {row}: ")]
    good = status == 1 and count and count[2] == "1" and len(lines) == 2 and not others
    return None if good else f"status {status}, {lines!r}"


def tree_lacks(removed):
    """What is wrong with what tools/tree says where something is not there."""
    with tempfile.TemporaryDirectory() as room:
        tree_room(room, {})
        if removed == ".git":
            shutil.rmtree(f"{room}/.git")
        else:
            subprocess.run(["git", "rm", "-q", removed], cwd=room, check=True)
        status, lines = tree_run(room)
    good = status == 1 and len(lines) == 2 and lines[-1] == "0 passed, 1 failed"
    return None if good else f"status {status}, {lines!r}"


# What can be left behind: what was changed before, what is changed after, and whether this is seen.
TREE_LEFT = {
    "nothing": ({}, {}, False),
    "what is ignored": ({}, {"docs/page.part": "", "crates/low/out/low": ""}, False),
    "a change that was there": ({"docs/page.md": "other\n", "docs/new.md": ""}, {}, False),
    "a new file": ({}, {"docs/new.md": ""}, True),
    "a changed file": ({}, {"docs/page.md": "other\n"}, True),
    "a file that is gone": ({}, {"docs/page.md": None}, True),
    "a file that is changed again": ({"docs/page.md": "other\n"}, {"docs/page.md": "more\n"}, True),
    "a change that is undone": ({"docs/page.md": "other\n"}, {"docs/page.md": TREE["docs/page.md"]},
                                True),
}


def tree_left_fault(before, after, is_seen):
    """What is wrong with what `tools/tree --clean` says of changes."""
    with tempfile.TemporaryDirectory() as room, tempfile.TemporaryDirectory() as apart:
        tree_room(room, {})
        plant(room, before)
        status, _ = tree_run(room, CI_TREE=f"{apart}/tree")
        if status:
            return f"status {status} before"
        plant(room, after)
        outcomes = [tree_run(room, "--clean", CI_TREE=f"{apart}/tree")]
        if not before:
            outcomes.append(tree_run(room, "--clean"))
    wanted = (1, "0 passed, 1 failed") if is_seen else (0, "1 passed, 0 failed")
    good = all((status, lines[-1]) == wanted for status, lines in outcomes)
    return None if good else f"{outcomes!r}"


def gate_cases():
    """Each case: its name, the function that says what is wrong, and what it is given."""
    yield "tools/quick: all pass", quick_fault, None
    yield "tools/quick: no library", quick_fault, None, False
    for name, faulty in QUICK_FAULTS.items():
        yield f"tools/quick: {name}", quick_fault, faulty
    yield "tools/tree: nothing is wrong", tree_fault, {}, None
    for name, case in TREE_FAULTS.items():
        yield f"tools/tree: {name}", tree_fault, *case
    for name in (".git", "crates.txt"):
        yield f"tools/tree: no {name}", tree_lacks, name
    for name, case in TREE_LEFT.items():
        yield f"tools/tree --clean: {name}", tree_left_fault, *case

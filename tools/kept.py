"""What passed on this machine, by the checksum of all that was read.

Of each mistake the last pass is kept, in sicklespan/edits/ of the folder for caches (XDG_CACHE_HOME,
or .cache in the home): the checksum of the kit's name, of the scripts, of the sources, definitions
and proofs of the mistake's crate and of those below it, of the mistake, and of its row's goal.
"""

import functools
import glob
import hashlib
import os
import subprocess

from rooms import PARTS

SCRIPTS = ("edits", "kept.py", "mistakes.py", "rooms.py")


def checksum(*texts):
    return hashlib.sha256("\0".join(texts).encode()).hexdigest()


def checksum_of_files(paths, root):
    """The checksum of files and of their names below a folder."""
    it = hashlib.sha256()
    for path in sorted(paths):
        with open(path, "rb") as file:
            content = file.read()
        it.update(f"{os.path.relpath(path, root)} {len(content)}\0".encode() + content)
    return it.hexdigest()


class Kept:
    """What passed of the mistakes of crates."""

    def __init__(self, crates):
        self.crates = crates
        cache = os.environ.get("XDG_CACHE_HOME") or os.path.expanduser("~/.cache")
        self.folder = f"{cache}/sicklespan/edits"

    @functools.cached_property
    def all(self):
        """The checksum of what every check reads."""
        tools = [f"{self.crates.root}/tools/{name}" for name in SCRIPTS]
        handles = glob.glob(f"{self.crates.root}/HANDLES")
        kit = subprocess.run(["rt", "version"], capture_output=True, text=True, check=False).stdout
        return checksum(kit, checksum_of_files(tools + handles, self.crates.root))

    @functools.cache
    def crate(self, name):
        """The checksum of a crate, without those below it."""
        folder = self.crates.folder(name)
        paths = [f"{place}/{file}" for part in PARTS
                 for place, _folders, files in os.walk(f"{folder}/{part}") for file in files]
        return checksum(self.crates.heads[name], " ".join(self.crates.libraries[name]),
                        checksum_of_files(paths, folder))

    def key(self, mistake, row):
        """The checksum of all that the trial of a mistake reads."""
        below = sorted(self.crates.below(mistake.crate))
        return checksum(self.all, self.crate(mistake.crate), *map(self.crate, below),
                        mistake.crate, mistake.file, repr(mistake.pairs),
                        f"{row.function} {row.goal}" if row else "")

    def path(self, mistake):
        return f"{self.folder}/{mistake.crate}/{mistake.name}"

    def has(self, mistake, row):
        """Whether a mistake passed with the same row, and all that its trial reads is the same."""
        try:
            with open(self.path(mistake), encoding="utf-8") as it:
                return it.read() == self.key(mistake, row)
        except OSError:
            return False

    def put(self, mistake, row):
        """Notes that a mistake passed. Where nothing can be written, nothing is kept."""
        path = self.path(mistake)
        try:
            os.makedirs(os.path.dirname(path), exist_ok=True)
            with open(f"{path}.{os.getpid()}", "w", encoding="utf-8") as it:
                it.write(self.key(mistake, row))
            os.replace(f"{path}.{os.getpid()}", path)
        except OSError:
            pass

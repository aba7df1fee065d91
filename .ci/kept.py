"""Keeps which wrong bodies were refused, on this machine, by the sum of all that each try was made of.

A sum is of the edit, of its crate's sources, definitions and proofs, of the libraries below as `rt ci` left them, of the
scripts that try it and of the kit. It is kept in a folder beside the kit's own, as a file of that name with what
the try said. It is a store of passed tries alone: a file that is lost costs one try, and where the folder can't be
written nothing is kept.
"""
import functools
import hashlib
import os
import subprocess
import tempfile
import threading

FOLDER = "ciravogu-refused"
PARTS = ("src", "specs", "proofs")
HERE = os.path.dirname(os.path.realpath(__file__))
SCRIPTS = ("edits", "holes.py", "kept.py")
# What a check reads of a library: its list of what it has, its checked modules, and its sources.
OF_LIBRARY = ("format", "toolchain/checked.a", "lang")


def files_of(at):
    """The files at a path, which may be one itself, in order."""
    if os.path.isfile(at):
        return [at]
    return sorted(f"{folder}/{name}" for folder, _, names in os.walk(at) for name in names)


def sum_of_file(file):
    whole = hashlib.sha256()
    with open(file, "rb") as it:
        while part := it.read(1 << 20):
            whole.update(part)
    return whole.hexdigest()


def sum_of_files(root, parts):
    """The sum of some files and folders below a folder, with their names."""
    files = [file for part in parts for file in files_of(f"{root}/{part}")]
    return hashlib.sha256("".join(f"{os.path.relpath(it, root)} {sum_of_file(it)}\n" for it in files).encode()).hexdigest()


class Store:
    def __init__(self, beside, root, library, below):
        self.at, self.root, self.library, self.below = f"{beside}/{FOLDER}", root, library, below
        self.lock = threading.Lock()
        kit = subprocess.run(["rt", "version"], stdout=subprocess.PIPE, text=True, check=True).stdout
        self.tools = f"{kit}{sum_of_files(HERE, SCRIPTS)}"
        try:
            os.makedirs(self.at, mode=0o700, exist_ok=True)
            self.is_open = os.access(self.at, os.W_OK)
        except OSError:
            self.is_open = False

    @functools.lru_cache(maxsize=None)
    def of_library(self, name):
        return sum_of_files(self.library(name), OF_LIBRARY)

    @functools.lru_cache(maxsize=None)
    def of_crate(self, name):
        """The sum of what every edit of a crate is tried with."""
        needs = "".join(f"{it} {self.of_library(it)}\n" for it in sorted(self.below(name)))
        listed = [line for line in open(f"{self.root}/crates.txt", encoding="utf-8") if line.split(":")[0].split()[:1] == [name]]
        return f"{self.tools}\n{needs}{listed}{sum_of_files(f'{self.root}/crates/{name}', PARTS)}"

    def sum_of(self, edit):
        with self.lock:
            of_crate = self.of_crate(edit.crate)
        text = sum_of_files(f"{self.root}/crates/{edit.crate}/edits", [f"{edit.name}.edit"])
        return hashlib.sha256(f"{of_crate}\n{text}".encode()).hexdigest()

    def told(self, sum):
        """What was said when what has this sum was refused, if it was."""
        try:
            with open(f"{self.at}/{sum}", encoding="utf-8") as it:
                return it.read().rstrip("\n") or None
        except OSError:
            return None

    def keep(self, sum, text):
        if not self.is_open:
            return
        try:
            with tempfile.NamedTemporaryFile("w", dir=self.at, prefix="new-", delete=False, encoding="utf-8") as it:
                it.write(f"{text}\n")
            os.replace(it.name, f"{self.at}/{sum}")
        except OSError:
            pass

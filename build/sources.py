"""The sources that hmc is built from: their crates, files and checksums."""
import functools
import hashlib
import os
import pathlib
import shutil

TOP = pathlib.Path(__file__).resolve().parent.parent


@functools.lru_cache(maxsize=None)
def kit():
    """Returns the folder of the Rattle kit whose command `rt` is on the PATH, or None."""
    found = shutil.which("rt")
    return pathlib.Path(found).resolve().parent.parent if found else None


def kit_checksum(*names):
    """Returns a checksum of these files of the kit."""
    made = hashlib.sha256()
    for name in names:
        file = kit() / name
        made.update(repr((name, file.read_bytes() if file.is_file() else None)).encode())
    return made.hexdigest()


@functools.lru_cache(maxsize=None)
def rows(top=TOP):
    """Returns the rows of crates.txt: by the name of a crate, the words before the colon and the libraries after it."""
    lines = [line.partition("#")[0].partition(":") for line in (top / "crates.txt").read_text(encoding="utf-8").splitlines()]
    return {head.split()[0]: (head.split(), rest.split()) for head, _, rest in lines if head.strip()}


def crates_of(name, top=TOP):
    """Returns the crates of the repository that a crate depends on, lowest first, and last the crate itself."""
    found = {}

    def visit(crate):
        if crate in rows(top) and crate not in found:
            for dep in rows(top)[crate][1]:
                visit(dep)
            found[crate] = None

    visit(name)
    return list(found)


def files(folder):
    """Returns all files below a folder, in an order that doesn't depend on the file system."""
    found = []
    for at, folders, names in os.walk(folder):
        folders.sort()
        found += (os.path.join(at, it) for it in sorted(names))
    return found


def checksum(name, parts, top=TOP):
    """Returns a checksum of HANDLES and, for a crate and those below it, their rows of crates.txt and the files in these folders."""
    made = hashlib.sha256((top / "HANDLES").read_bytes() if (top / "HANDLES").is_file() else b"")
    for crate in crates_of(name, top):
        made.update(repr(rows(top)[crate]).encode())
        for part in parts:
            for file in files(top / "crates" / crate / part):
                with open(file, "rb") as it:
                    made.update(repr((os.path.relpath(file, top), it.read())).encode())
    return made.hexdigest()


def read(file):
    """Returns the text of a file, or None if it can't be read."""
    try:
        return pathlib.Path(file).read_text(encoding="utf-8")
    except (OSError, UnicodeDecodeError):
        return None


def write(file, text):
    """Writes a file so that it is there whole or not at all."""
    part = pathlib.Path(f"{file}.{os.getpid()}.part")
    try:
        part.write_text(text, encoding="utf-8")
        os.replace(part, file)
    finally:
        if part.exists():
            part.unlink()

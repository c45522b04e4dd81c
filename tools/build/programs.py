"""Where the programs are that were made from the sources as they are now.

A program is kept in the directory out/ at the top, or, if that isn't writable, in the user's cache directory. Its name there ends with a
checksum of what it was made from: so one that is found belongs to these sources, whatever the times of files say; and it is put there
whole, or not at all.
"""

import contextlib
import fcntl
import hashlib
import os
import shutil

import library
import sources

# What a program is made of, in each of its crates. One that is compiled without proofs has nothing of specs and proofs.
PARTS = {"proved": ("src", "specs", "proofs"), "quick": ("src",)}


class NoPlace(Exception):
    """A program can't be written anywhere; says why."""


def checksum(name, kind):
    """A checksum of what a program is made of: the lines of crates.txt and the files of its crates; and of a library its header, and
    what makes its folder."""
    listed = sources.crates()
    found = hashlib.sha256()
    if name in sources.static_libraries():
        for path in (library.HEADER, "tools/library.py"):
            found.update(sources.read(path).encode())
    for crate in sources.standing_below(name, listed):
        found.update(f"{crate}: {' '.join(listed[crate])}\n".encode())
        for path in (it for part in PARTS[kind] for it in sources.files_below(f"crates/{crate}/{part}", "")):
            with open(f"{sources.TOP}/{path}", "rb") as it:
                text = it.read()
            found.update(f"{path} {len(text)}\n".encode())
            found.update(text)
    return found.hexdigest()[:24]


def folders():
    """The folders where programs are, the first choice first."""
    cache = os.environ.get("XDG_CACHE_HOME") or os.path.expanduser("~/.cache")
    return [f"{sources.TOP}/out", f"{cache}/ningkraet"]


def found(name, kind):
    """The path of a program of the sources as they are now, if there is one."""
    made_of = checksum(name, kind)
    paths = (f"{folder}/{name}-{kind}-{made_of}" for folder in folders())
    return next((it for it in paths if os.access(it, os.X_OK)), None)


@contextlib.contextmanager
def turn(name, kind, tell):
    """Gives the folder where a program is to be put, once no other command makes one of that name and kind there."""
    refused = []
    for folder in folders():
        try:
            os.makedirs(folder, exist_ok=True)
            lock = open(f"{folder}/{name}-{kind}.lock", "w")
        except OSError as error:
            refused.append(f"{folder} ({error.strerror})")
            continue
        with lock:
            try:
                fcntl.flock(lock, fcntl.LOCK_EX | fcntl.LOCK_NB)
            except BlockingIOError:
                tell("another command is making the program; waiting for it")
                fcntl.flock(lock, fcntl.LOCK_EX)
            yield folder
        return
    raise NoPlace(f"the program can't be written to {', nor to '.join(refused)}")


def keep(made, folder, name, kind, made_of):
    """Puts a program, or the folder of a library, into such a folder, and gives its path. In the checkout it takes the place of those of earlier sources; the
    user's folder may serve several checkouts."""
    path, new = f"{folder}/{name}-{kind}-{made_of}", f"{folder}/{name}-{kind}.new"
    try:
        if os.path.isdir(made):
            remove(new)
            shutil.copytree(made, new)
            # A folder can't take the place of one that isn't empty.
            remove(path)
        else:
            shutil.copyfile(made, new)
            os.chmod(new, 0o755)
        os.rename(new, path)
    except OSError as error:
        remove(new)
        raise NoPlace(f"the program can't be written to {folder}: {error.strerror}") from error
    for other in os.listdir(folder) if folder == folders()[0] else []:
        if other.startswith(f"{name}-{kind}-") and f"{folder}/{other}" != path:
            remove(f"{folder}/{other}")
    return path


def remove(path):
    """Removes a file or a folder, if it is there."""
    with contextlib.suppress(OSError):
        shutil.rmtree(path) if os.path.isdir(path) else os.remove(path)

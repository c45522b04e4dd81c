"""Builds the archive of a static library from what rt ci has just proved in a checkout."""

import os
import shutil
import sys

import library
import programs
import running
import sources

# What tools/build/archive ends with where the toolchain can't build an archive over the gate's libraries.
NO_SUCH_PART = 3


def built(name, top, room, tell):
    """Builds the archive of a library in the checkout top, and gives the path of its folder, in room."""
    crate = f"{top}/crates/{name}"
    kit = os.path.dirname(os.path.dirname(os.path.realpath(shutil.which("rt"))))
    status = status_of([f"{sources.TOP}/tools/build/archive", kit, crate], crate)
    if status == NO_SUCH_PART:
        tell("by this toolchain all is proved once more")
        status = status_of(["rt", "lib"], crate)
    if status:
        raise programs.NoPlace("its archive isn't built")
    return library.installed(name, f"{crate}/out/lib{name}.a", kit, room, True)


def status_of(words, folder):
    with running.begun(words, cwd=folder, stdout=sys.stderr, stderr=sys.stderr) as ran:
        return ran.wait()

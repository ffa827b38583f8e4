"""The toolchain's command rt as a module, for tools/prove, tools/build-unproved and tools/rt."""
import importlib.machinery
import importlib.util
import os
import re
import shutil
import subprocess
import sys
import threading

# The first version of the toolchain that the sources are proved with: a number and a letter, as in rattle-kit-13b.
FIRST = (13, "b")
WANTED = f"rattle-kit-{FIRST[0]}{FIRST[1]} or later"


def version():
    """The line by which the toolchain says which it is."""
    said = subprocess.run(["rt", "version"], stdin=subprocess.DEVNULL, capture_output=True, text=True)
    return said.stdout.strip()


def why_unfit():
    """Why the toolchain on this machine cannot build the program, or None where it can."""
    if not shutil.which("rt"):
        return f"the Rattle toolchain is not on this machine: there is no command rt on the path ({WANTED} is needed)"
    line = version()
    found = re.match(r"rattle-kit-([0-9]+)([a-z]*)", line)
    if not found or (int(found[1]), found[2]) < FIRST:
        return f"the Rattle toolchain has to be {WANTED}, and `rt version` says: {line or 'nothing'}"
    return None


def load():
    """Returns the command rt as a module, or None where there is no such command."""
    command = shutil.which("rt")
    if not command:
        return None
    loader = importlib.machinery.SourceFileLoader("rt", os.path.realpath(command))
    spec = importlib.util.spec_from_loader("rt", loader)
    made = importlib.util.module_from_spec(spec)
    sys.dont_write_bytecode = True
    loader.exec_module(made)
    sum_up_once(made.rtlib.Crate)
    return made


def sum_up_once(crate):
    """Has the sum over the files of a crate and of all below it (`stamp`), by which rt knows whether a library has to be built, read each of them once.
    Left alone rt reads a crate once for each path that leads to it through the dependencies: there are tens of thousands, which take minutes in the
    crates at the top, for each library below. The sum is the same."""
    plain, known = crate.stamp, threading.local()

    def stamp(self):
        sums = getattr(known, "sums", None)
        if sums is None:
            known.sums = {}
            try:
                return plain(self)
            finally:
                known.sums = None
        if self.folder not in sums:
            sums[self.folder] = plain(self)
        return sums[self.folder]

    crate.stamp = stamp

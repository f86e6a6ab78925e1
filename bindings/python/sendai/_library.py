"""Where the checker's calls are found, and a shared library that is linked from the archive."""
from __future__ import annotations

import ctypes
import ctypes.util
import os
import shlex
import subprocess
import tempfile
from ctypes import CDLL, PyDLL

from . import _records

PACKAGE = os.path.dirname(os.path.abspath(__file__))
TOP = os.path.dirname(os.path.dirname(os.path.dirname(PACKAGE)))
ARCHIVE = os.path.join(TOP, "target", "staticlib", "libexports.a")
LINKED = os.path.join(TOP, "target", "python", "libsendai.so")
NAME = "libsendai.so"
VARIABLE = "SENDAI_LIBRARY"


class NoLibrary(Exception):
    """The checker's calls are not at hand."""


def link(archive: str, made: str) -> None:
    """Links a shared library that has all of the archive, by the C compiler that CC names (cc)."""
    compiler = shlex.split(os.environ.get("CC", "cc"))
    words = ["-shared", "-o", made, "-Wl,--whole-archive", archive, "-Wl,--no-whole-archive"]
    try:
        done = subprocess.run(compiler + words, stdout=subprocess.PIPE, stderr=subprocess.STDOUT)
    except OSError as e:
        raise NoLibrary("no C compiler to link %s: %s (CC names another, %s a shared library)" % (archive, e, VARIABLE)) from None
    if done.returncode:
        raise NoLibrary("%s can't be linked: %s" % (archive, done.stdout.decode(errors="replace").strip()))


def linked() -> str:
    """The shared library of this repository's archive, which is kept, and made again when the archive is younger."""
    if os.path.exists(LINKED) and os.path.getmtime(LINKED) > os.path.getmtime(ARCHIVE):
        return LINKED
    try:
        os.makedirs(os.path.dirname(LINKED), exist_ok=True)
        # one that is half written is never there under the name, and two that link at once don't meet
        with tempfile.TemporaryDirectory(dir=os.path.dirname(LINKED)) as folder:
            made = os.path.join(folder, NAME)
            link(ARCHIVE, made)
            os.replace(made, LINKED)
    except OSError as e:
        raise NoLibrary("no %s can be written: %s (%s names a shared library)" % (LINKED, e.strerror, VARIABLE)) from None
    return LINKED


def found() -> str:
    """The path or name of the library, by the places in their order."""
    if os.environ.get(VARIABLE):
        return os.environ[VARIABLE]
    for folder in (PACKAGE, os.path.dirname(PACKAGE)):
        if os.path.exists(os.path.join(folder, NAME)):
            return os.path.join(folder, NAME)
    if os.path.exists(ARCHIVE):
        return linked()
    return ctypes.util.find_library("sendai") or NAME


def opened(path: str) -> Calls:
    """The calls of an archive, a shared library, or one of the system's by its name."""
    if not os.path.exists(path) and path != os.path.basename(path):
        raise NoLibrary("no library is at %s" % path)
    if not path.endswith(".a"):
        return Calls(path)
    if os.path.realpath(path) == os.path.realpath(ARCHIVE):
        return Calls(linked())
    with tempfile.TemporaryDirectory() as folder:
        made = os.path.join(folder, NAME)
        link(path, made)
        return Calls(made)


class Calls:
    """The calls of a shared library. They keep Python's lock, so that no other thread changes a record or a buffer in the meantime;
    `unlocked` has them without it, for long ones on records and buffers that no one else has."""

    def __init__(self, path: str) -> None:
        try:
            # a path without a folder would be looked for among the system's
            path = os.path.abspath(path) if os.path.exists(path) else path
            self.locked, self.unlocked = PyDLL(path), CDLL(path)
        except OSError as e:
            raise NoLibrary(str(e)) from None
        for name, (answer, arguments) in _records.CALLS.items():
            if not hasattr(self.locked, name):
                raise NoLibrary("%s has no %s: it is of another version" % (path, name))
            for library in (self.locked, self.unlocked):
                getattr(library, name).restype, getattr(library, name).argtypes = answer, arguments

    def version(self) -> str:
        """`major.minor.patch`, or "unknown" where the library does not tell."""
        if not hasattr(self.locked, _records.VERSION):
            return "unknown"
        told = getattr(self.locked, _records.VERSION)
        told.restype, told.argtypes = ctypes.c_uint32, []
        number = told()
        return "%d.%d.%d" % (number // 10000, number // 100 % 100, number % 100)


_loaded: list[Calls] = []


def load(path: str | None = None) -> None:
    """Takes the calls from this archive or shared library from now on; without a path, from the first of the places that the package
    names. What was made before keeps the calls that made it. Where nothing was loaded the first call does it."""
    path = path or found()
    try:
        _loaded[:] = [opened(path)]
    except NoLibrary as e:
        if path != NAME:
            raise
        hint = "run `bindings/prove archive` in %s, or let %s name an archive or a shared library" % (TOP, VARIABLE)
        raise NoLibrary("%s; %s" % (e, hint)) from None


def calls() -> Calls:
    """The calls that are loaded."""
    if not _loaded:
        load()
    return _loaded[0]

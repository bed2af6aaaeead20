#!/usr/bin/env python3
"""Static libraries as the gate leaves them: built of what it, or an earlier run on this machine, has proved, with a note of what they were made from, so that
nothing proves it twice.

Run as a program, `static.py NAME`, at the top of the repository, it tells by its status whether a crate's library is such a one, of the files that are
there now.
"""
import hashlib
import os
import sys
import tempfile
from pathlib import Path

sys.dont_write_bytecode = True

from kit import crates, rt

# of the check's words, those that a build of what was checked does not take
CHECK_ALONE = ("--logic-built", "--jobs")


def archive_of(crate):
    # (what `rt ci` keeps has a name that begins with the crate's)
    return Path(crate.folder, "out", f"{crate.name}.a")


def note_of(crate):
    return Path(crate.folder, "out", f"{crate.name}.a.proved")


def note(crate):
    """Returns what a library's note says where it is of the files that are there: a sum of these, of the toolchain, and of the library."""
    return f"{crate.stamp()} {hashlib.sha256(archive_of(crate).read_bytes()).hexdigest()}\n"


def is_proved(crate):
    """Returns whether a crate's static library was built of what was proved, of the files that are there."""
    return archive_of(crate).is_file() and note_of(crate).is_file() and note_of(crate).read_text() == note(crate)


def prove(crate, flags):
    """Proves a crate from nothing, as `rt ci` does, and builds its static library of that; returns the status."""
    words = crate.words(flags, keeps=False)
    with tempfile.TemporaryDirectory(prefix="gate-checked-") as room:
        status = crate.prove(["check", *words, "-o", f"{room}/checked"])
        for it in CHECK_ALONE:
            at = words.index(it)
            del words[at : at + 2]
        words += ["--crate-checked", f"{room}/checked", "--toolchain", f"{rt.KIT}/toolchain", "--backend", "llvm", "-o", str(archive_of(crate))]
        return status or crate.call(rt.rtlib.RATTLE, "build", *words)


def build_what_is_proved():
    """Has `rt ci` build each static library that it proves, keep it for later runs on this machine, as it keeps other libraries, and note that it is of
    the files that are there. The note is made anew for one that was kept: what it stands on may have other comments now, and be built alike."""
    of_rt, made, is_whole, is_built = rt.Crate.ci, rt.Kept.made, rt.Kept.is_whole, rt.Kept.is_built

    def ci(crate, flags, tests):
        return prove(crate, flags) if crate.is_static and not tests else of_rt(crate, flags, tests)

    def made_of(kept, crate, tests):
        return [archive_of(crate).name] * archive_of(crate).is_file() if crate.is_static and not tests else made(kept, crate, tests)

    def is_whole_of(kept, crate, tests, files):
        return len(files) == 1 if crate.is_static and not tests else is_whole(kept, crate, tests, files)

    def is_built_of(kept, crate):
        is_built(kept, crate)
        if crate.is_static and all(kept.is_untouched(it) for it in [crate, *crate.below()]):
            note_of(crate).write_text(note(crate))

    rt.Crate.ci, rt.Kept.made, rt.Kept.is_whole, rt.Kept.is_built = ci, made_of, is_whole_of, is_built_of


if __name__ == "__main__":
    rt.rtlib.Crate = rt.Crate
    sys.exit(0 if any(it.name == sys.argv[1] and is_proved(it) for it in crates()) else 1)

"""The modules that the proof of a crate has checked, for the judge to go over.

While `rattle` runs, it keeps each module that it has checked in a folder of its own, which it removes at its end. Here they are linked as they come
into another, in the form that --incremental reads: a check over that folder takes what is up to date, by the sums of what it was made from, and
checks the rest. Where a later toolchain keeps them elsewhere, nothing is found here, and the judge proves the crate once more.
"""
import contextlib
import os
import shutil
import subprocess
import tempfile
from pathlib import Path

from kit import rt

# where a check keeps its modules while it runs, by its process
PLACE = "rattle-logic-built-locked-{}-0"
# in the name of what is still being written
UNFINISHED = ".tmp."


def name_of_build():
    """Returns the name of the folder that this build of rattle makes below the one that --incremental names."""
    with tempfile.TemporaryDirectory(prefix="gate-build-") as room:
        Path(room, "src").mkdir()
        Path(room, "src/lib.rt").write_text("#![tactic(auto)]\n")
        words = ["--crate-name", "nothing", "src/lib.rt", "--extern", f"core={rt.KIT}/rlibs/core.rlib", "--incremental", "kept", "--only", ""]
        words += ["--antt-project", f"{rt.KIT}/rattle/logic/antt-project.json", "--logic-built", f"{rt.KIT}/logic_built"]
        subprocess.run([rt.rtlib.RATTLE, "check", *words], cwd=room, capture_output=True)
        return next(iter(os.listdir(f"{room}/kept") if os.path.isdir(f"{room}/kept") else []), None)


def link_new(one, other):
    """Links the files of a folder that another does not have yet."""
    os.makedirs(other, exist_ok=True)
    known = {*os.listdir(other)}
    for it in os.scandir(one):
        # (what cannot be linked, since the check has ended or the disk is full, is checked again)
        with contextlib.suppress(OSError):
            if it.is_dir(follow_symlinks=False):
                link_new(it.path, f"{other}/{it.name}")
            elif it.name not in known and UNFINISHED not in it.name:
                os.link(it.path, f"{other}/{it.name}")


class Modules:
    """Folders below `room`, each with the modules of one crate, of those of which so many `pieces` are to be judged."""

    def __init__(self, room, pieces):
        self.room, self.left, self.build = room, dict(pieces), name_of_build()

    def folder(self, crate):
        """Returns a crate's folder, if its proof has left something there."""
        folder = f"{self.room}/{crate}"
        return folder if os.path.isdir(folder) else None

    def look(self, crate, pid):
        """Takes what a process that proves a crate has checked until now."""
        place = f"{tempfile.gettempdir()}/{PLACE.format(pid)}"
        if self.build and self.left.get(crate) and os.path.isdir(place):
            with contextlib.suppress(OSError):
                link_new(place, f"{self.room}/{crate}/{self.build}")

    def used(self, crate):
        """Notes that one piece more was judged, and lets go of the modules after the last."""
        self.left[crate] -= 1
        if not self.left[crate]:
            shutil.rmtree(f"{self.room}/{crate}", ignore_errors=True)

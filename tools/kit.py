"""The toolchain's `rt` as a module: its crates, its reading of edits, its way of checking a copy of a crate."""
import importlib.machinery
import importlib.util
import operator
import os
import shutil
import sys

# what the tools use of the insides of `rt`, beside what its commands promise
INSIDES = "Crate.call Crate.ci Crate.prove Crate.stamp Crate.words KIT Kept.is_built Kept.is_untouched Kept.is_whole Kept.made checked free in_lanes main must_fail need processors read_edit unread rtlib.RATTLE rtlib.STALE rtlib.blanked.__wrapped__"
INSIDES += " rtlib.crates_below rtlib.files_of rtlib.guarded rtlib.lock"


class Unexpected(ImportError):
    """That the toolchain's insides are not as these tools expect them."""


def load(name, path):
    """Loads a script as a module of this name."""
    sys.dont_write_bytecode = True
    loader = importlib.machinery.SourceFileLoader(name, str(path))
    made = importlib.util.module_from_spec(importlib.util.spec_from_loader(name, loader))
    sys.modules[name] = made
    loader.exec_module(made)
    return made


def load_rt():
    path = os.path.realpath(shutil.which("rt") or sys.exit("rt, the toolchain's command, is not on the path"))
    try:
        made, lacks = load("rt", path), []
    except (Exception, SystemExit) as why:
        raise Unexpected(f"{path} is read as no module: {why}") from why
    for it in INSIDES.split():
        try:
            operator.attrgetter(it)(made)
        except AttributeError:
            lacks.append(it)
    if lacks:
        raise Unexpected(f"{path} has no {', '.join(lacks)}")
    return made


rt = load_rt()


def crates():
    """Returns the crates of the repository in whose top folder this runs, lowest first."""
    return rt.rtlib.crates_below(os.getcwd())


def jobs_that_fit(crate):
    """Returns how many modules of the crate can be checked at a time, by processors and memory, as `rt ci` reckons."""
    in_memory = 1 + int((0.8 * rt.free() / rt.need(crate) - 1) / 0.6)
    return max(1, min(rt.processors(), in_memory))


"""What the checks below this process take, by crate, as seen once a second, and the modules of proofs; and their end, where they stand still."""
import contextlib
import os
import signal
import threading
import time
from pathlib import Path
from typing import NamedTuple

TICKS = os.sysconf("SC_CLK_TCK")
KINDS = ("proof", "tests", "edits")
# a check that has used no processor time for so many seconds waits for a process that the system has ended
STILL = 600


class Process(NamedTuple):
    parent: int
    began: float  # seconds since the machine's start
    used: float  # processor seconds
    words: list
    folder: str


def process(pid):
    """Reads what a process is, or returns None where it has ended."""
    try:
        fields = Path(f"/proc/{pid}/stat").read_text().rpartition(")")[2].split()
        words = Path(f"/proc/{pid}/cmdline").read_text(errors="replace").split("\0")
        folder = os.readlink(f"/proc/{pid}/cwd")
    except OSError:
        return None
    return Process(int(fields[1]), int(fields[19]) / TICKS, (int(fields[11]) + int(fields[12])) / TICKS, words, folder)


def processes_below(top):
    """Returns the processes that this one has started, and that those have, by number."""
    every = {int(it): process(it) for it in os.listdir("/proc") if it.isdigit()}
    below, more = {}, [top]
    while more:
        more = [pid for pid, it in every.items() if it and it.parent in more]
        below.update((pid, every[pid]) for pid in more)
    return below


def end_with_all_below(pid):
    """Ends a process, which may tidy up for some seconds, and all below it."""
    below = processes_below(pid)
    with contextlib.suppress(OSError):
        os.kill(pid, signal.SIGTERM)
    begun = time.time()
    # (one that has ended, and that nobody has waited for, has no words)
    while time.time() < begun + 10 and (found := process(pid)) and found.words != [""]:
        time.sleep(0.1)
    for it in (pid, *below):
        with contextlib.suppress(OSError):
            os.kill(it, signal.SIGKILL)


def check_of(it):
    """Returns the crate that a process checks and whether it is for the proof, the tests or an edit, or None."""
    if os.path.basename(it.words[0]) != "rattle" or "--crate-name" not in it.words:
        return None
    crate = it.words[it.words.index("--crate-name") + 1]
    is_edit = os.path.basename(it.folder).startswith("rt-edit-")
    return crate, "edits" if is_edit else "tests" if "--test" in it.words else "proof"


class Watch(threading.Thread):
    """Looks once a second."""

    def __init__(self, modules):
        super().__init__(daemon=True)
        self.modules = modules
        self.took, self.used, self.loads, self.ended = {}, {}, [], threading.Event()
        # by check: the processor time of it and of the processes below it, and since when it is that
        self.moved = {}

    def run(self):
        while not self.ended.wait(1):
            self.loads.append(os.getloadavg()[0])
            self.look(processes_below(os.getpid()))

    def look(self, below):
        now = time.clock_gettime(time.CLOCK_BOOTTIME)
        for pid, it in below.items():
            check = check_of(it)
            if check:
                self.used[pid, it.began] = check, it.used
            # what a check has forked to go side by side takes no time of its own
            if check and not (it.parent in below and check_of(below[it.parent])):
                self.took[pid, it.began] = check, now - it.began
                if check[1] == "proof":
                    self.modules.look(check[0], pid)
                self.end_if_still(pid, it, below, now)

    def end_if_still(self, pid, it, below, now):
        """Ends a check that stands still."""
        parts = {pid}
        while more := {other for other, found in below.items() if found.parent in parts} - parts:
            parts |= more
        used = sorted((part, below[part].used) for part in parts)
        was, since = self.moved.get((pid, it.began), (None, now))
        if used != was:
            self.moved[pid, it.began] = used, now
        elif now - since > STILL:
            print(f"gate: a check of {check_of(it)[0]} has stood still for {STILL} seconds, and is ended", flush=True)
            with contextlib.suppress(OSError):
                os.kill(pid, signal.SIGKILL)

    def stop(self):
        self.ended.set()
        self.join()

    def load(self):
        return f"load {sum(self.loads) / max(1, len(self.loads)):.1f} on average"

    def table(self, crates):
        """Returns a line for each crate: the seconds of its checks, and their processor seconds."""
        lines = [f"{'seconds':<16}" + "".join(f"{it:>10}" for it in (*KINDS, "processor"))]
        for crate in crates:
            columns = [sum(took for check, took in self.took.values() if check == (crate, it)) for it in KINDS]
            columns.append(sum(used for check, used in self.used.values() if check[0] == crate))
            lines.append(f"{crate:<16}" + "".join(f"{it:>10.0f}" for it in columns))
        return "\n".join(lines)

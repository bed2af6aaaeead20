"""The order of the gate's work: the longest chain of crates, a crate at a time, with other work beside it; then as much as processors and memory allow."""
import contextlib
import os
from collections.abc import Callable
from concurrent.futures import FIRST_COMPLETED, ThreadPoolExecutor, wait
from typing import NamedTuple

from kit import Unexpected, rt

# the longest chain of crates, lowest first, each of which is proved before others take processors from it; and those of them that little else can be
# done beside, so that they get all processors
CHAIN = (
    "html_text",
    "html_charref",
    "html_tokens",
    "html_arena",
    "html_open",
    "html_tree",
    "html_construction",
    "html_modes",
    "html_builder",
    "html_parser",
)
ALONE = ("html_tokens", "html_arena")
# of the memory that rt reckons for a crate, what a check by one process takes at most, as measured
SHARE = 0.6
# what each process more takes of that
MORE = 0.6


class Task(NamedTuple):
    """Something to do: the keys of what has to be done before, its seconds, roughly, the bytes of memory that it needs by one process, and a call that
    gets what is given by then and how many processes it may use; and how many it takes at least. Its key is a name, and what is done of that."""

    waits: list
    seconds: float
    need: float
    call: Callable
    jobs: int = 1

    def takes(self, jobs):
        """Returns how many bytes of memory it needs by so many processes."""
        return self.need * (1 + MORE * (jobs - 1))


def of_rt(tasks):
    """Returns the tasks of `rt ci` as tasks: what each waits for, its lines, its memory, and its call."""
    if any(len(it) != 4 or not callable(it[3]) for it in tasks.values()):
        raise Unexpected("the tasks of `rt ci` have another form")

    def seconds(key, lines):
        # (roughly, and rather too much: a proof that others wait for goes before edits)
        return 80 + lines // 5 if key[1] == "proof" or lines else 0

    return {key: Task(waits, seconds(key, lines), SHARE * needs, call) for key, (waits, lines, needs, call) in tasks.items()}


def is_check(key):
    """Returns whether a task proves a crate or its tests."""
    return key[1] in ("proof", "tests")


class Lanes:
    """Tasks by their keys, of which those in `chain` go first; what is left of them, which run, with how many processes each and what memory, and what the
    others gave."""

    def __init__(self, tasks, chain, processors, memory):
        self.tasks, self.processors, self.memory = tasks, processors, memory
        self.chain = [(it, "proof") for it in chain if (it, "proof") in tasks]
        self.behind = {it: 0 for it in tasks}
        # (a task comes after those that it waits for)
        for key in reversed([*tasks]):
            self.behind[key] += tasks[key].seconds
            for it in tasks[key].waits:
                self.behind[it] = max(self.behind[it], self.behind[key])
        self.needed, more = set(), self.chain
        while more:
            self.needed.update(more)
            more = [below for it in more for below in tasks[it].waits if below not in self.needed]
        self.left, self.running, self.given = sorted(tasks, key=lambda it: -self.behind[it]), {}, {}

    def run(self):
        """Does all of it, and returns what each task gave."""
        beside = self.beside()
        # (some kits' rt ends what it began where it is ended itself)
        with getattr(rt, "ending", contextlib.nullcontext)(), ThreadPoolExecutor(self.processors) as first, ThreadPoolExecutor(beside, initializer=os.nice, initargs=(10,)) as aside:
            while self.left:
                self.begin(first, aside)
                for it in wait([run for run, _, _ in self.running.values()], return_when=FIRST_COMPLETED).done:
                    [key] = [key for key, (run, _, _) in self.running.items() if run is it]
                    del self.running[key]
                    self.given[key] = it.result()
            self.given |= {key: run.result() for key, (run, _, _) in self.running.items()}
        return self.given

    def beside(self):
        """Returns how many tasks go beside the chain."""
        return max(1, self.processors // 2)

    def processes(self, key):
        """Returns how many processes a crate of the chain gets: most of the processors, so that what waits for the chain does not come too late; what
        goes beside it, at a lower priority, takes what it leaves."""
        return self.processors if key[0] in ALONE else max(1, 3 * self.processors // 4)

    def ready(self):
        """Returns the tasks that can begin, in their order."""
        return [it for it in self.left if all(below in self.given for below in self.tasks[it].waits)]

    def room(self):
        return self.memory - sum(need for _, _, need in self.running.values())

    def start(self, key, jobs, pool):
        task = self.tasks[key]
        jobs = max(jobs, task.jobs)
        self.left.remove(key)
        self.running[key] = pool.submit(task.call, self.given, jobs), jobs, task.takes(jobs)

    def begin(self, first, aside):
        """Begins what can begin by now."""
        chain = [it for it in self.chain if it not in self.given]
        if chain:
            self.begin_beside(chain, first, aside)
        else:
            self.begin_all(first)

    def begin_beside(self, chain, first, aside):
        """Begins the next crate of the chain, and beside it, by one process each, what the chain waits for, and then what is longest."""
        following, others = chain[0], [it for it in self.ready() if it not in chain]
        if following in self.ready():
            self.start(following, self.processes(following), first)
        for key in sorted(others, key=lambda it: it not in self.needed):
            begun = [it for it in self.running if it not in chain]
            kept_free = self.tasks[following].takes(self.processes(following)) if following not in self.running else 0
            is_room = self.tasks[key].takes(self.tasks[key].jobs) <= self.room() - kept_free
            if len(begun) < self.beside() and (is_room or not self.running):
                self.start(key, 1, aside)

    def begin_all(self, first):
        """Begins as many tasks as processors and memory allow, what is longest first, with processes to spare for the last."""
        ready, lacks = self.ready(), False
        for at, key in enumerate(ready):
            task, idle = self.tasks[key], self.idle()
            if lacks and not is_check(key):
                # (a proof waits for memory, which edits would take again and again)
                break
            if idle > 0 and (task.takes(task.jobs) <= self.room() or not self.running):
                spare = 1 + int((self.room() / task.need - 1) / MORE)
                self.start(key, max(1, min(4, int(idle) // (len(ready) - at), spare)), first)
            else:
                lacks = lacks or idle > 0 and is_check(key)

    def idle(self):
        """Returns how many processors have nothing to do: what has several processes keeps half of those busy that it has beside one."""
        return self.processors - sum((1 + jobs) / 2 for _, jobs, _ in self.running.values())


def in_lanes(tasks):
    """Does tasks in the gate's order on this machine, and returns what each gave, by its key."""
    return Lanes(tasks, CHAIN, rt.processors(), 0.85 * rt.free()).run()

"""Many pages from one stream: a line of JSON for each, in the order of the stream, by as many processes as asked for.

    python3 -m zilqumet batch --jobs 4 --max-nodes 100000 pages.tar > counts.jsonl
    python3 -m zilqumet batch --normalise < pages.jsonl

The stream is a tar (compressed or not), of which each file is a page, or lines of JSON, each an object with `body`, the page in base64, or `text`, the page
as a text, and a `name` of any kind. Of each page one line is written: its `name`, its `status`, and where that is `ok` what it counts (and with --normalise its
`text`), else the `place` where there is one. A page that is refused, or a line that is none, is a line too, and no end. The status of the program is 0 where
the stream was read to its end, 2 where the words are wrong, and 3 where the stream was cut, or one of the processes was ended; what was written before is
whole.
"""

from __future__ import annotations

import argparse
import base64
import binascii
import io
import json
import multiprocessing
import os
import signal
import sys
import tarfile
import time
from multiprocessing.connection import Connection, wait
from typing import Any, BinaryIO, Iterator, NamedTuple, Optional, Sequence, Union

from . import Refused, parse_counts

__all__ = ["Cut", "Ended", "Job", "answer_all", "answers", "main", "pages", "shares"]

# a share of the work: at most so many pages, or so many bytes and the page that passes them
_PAGES, _BYTES = 64, 1 << 20
_SECONDS = 0.5


class Job(NamedTuple):
    """What is done with each page: whether its text is written, whether SVG and MathML are parsed, and the limits."""

    normalise: bool = False
    foreign: bool = False
    max_nodes: Optional[int] = None
    max_held: Optional[int] = None
    max_input: Optional[int] = None
    max_steps: Optional[int] = None


# the bytes of a page, or why there are none
Body = Union[bytes, str]


class Cut(Exception):
    """The stream ended before its end."""


class Ended(Exception):
    """One of the processes was ended."""


# THE STREAM


def pages(stream: BinaryIO) -> Iterator[tuple[Any, Body]]:
    """The names and the bytes of the pages of a stream, a tar or lines of JSON; in place of the bytes of a line that is none, what is wrong."""
    reader = io.BufferedReader(stream) if isinstance(stream, io.RawIOBase) else stream
    first = reader.peek(1)[:1] if hasattr(reader, "peek") else b"{"
    return _lines(reader) if first in (b"{", b"", b"\n", b" ", b"\r", b"\t") else _files(reader)


class _Member(tarfile.TarInfo):
    """A member of a tar. Where there is none, and no mark of the end (of which `tarfile` makes an end like another), the tar is cut."""

    @classmethod
    def fromtarfile(cls, tar: tarfile.TarFile) -> tarfile.TarInfo:
        try:
            return super().fromtarfile(tar)
        except tarfile.EOFHeaderError:
            raise
        except tarfile.HeaderError as why:
            raise tarfile.ReadError(str(why)) from why


def _files(stream: BinaryIO) -> Iterator[tuple[Any, Body]]:
    try:
        with tarfile.open(fileobj=stream, mode="r|*", tarinfo=_Member) as tar:
            for member in tar:
                if member.isfile():
                    file = tar.extractfile(member)
                    yield member.name, b"" if file is None else file.read()
                # (which else keeps all members)
                tar.members = []
    except (tarfile.TarError, EOFError, OSError) as why:
        raise Cut(f"the tar ends too early or is none: {why}") from why


def _lines(stream: BinaryIO) -> Iterator[tuple[Any, Body]]:
    for number, line in enumerate(stream, 1):
        if line.strip():
            yield _page_of(number, line)


def _page_of(number: int, line: bytes) -> tuple[Any, Body]:
    """The name of a line's page, or its number from 1, and its bytes."""
    try:
        row = json.loads(line)
        name = row.get("name", number)
        if isinstance(row.get("text"), str):
            return name, row["text"].encode("utf-8", "surrogatepass")
        return name, base64.b64decode(row["body"], validate=True)
    except (ValueError, KeyError, TypeError, AttributeError, binascii.Error):
        return number, f"bad line {number}"


# THE ANSWERS


def _answer(job: Job, name: Any, body: Body) -> dict[str, Any]:
    """What comes of one page."""
    if isinstance(body, str):
        return {"name": name, "status": body}
    try:
        limits = {key: value for key, value in job._asdict().items() if key.startswith("max_")}
        counts, text = parse_counts(body, foreign=job.foreign, normalise=job.normalise, **limits)
    except Refused as why:
        return {"name": name, "status": why.cause, **({} if why.place is None else {"place": why.place})}
    except MemoryError:
        return {"name": name, "status": "out of memory"}
    return {"name": name, "status": "ok", **counts._asdict(), **({} if text is None else {"text": text})}


def answer_all(job: Job, share: Sequence[tuple[Any, Body]]) -> list[str]:
    """The lines of some pages, in their order."""
    return [json.dumps(_answer(job, name, body), ensure_ascii=False) for name, body in share]


def shares(stream: Iterator[tuple[Any, Body]]) -> Iterator[list[tuple[Any, Body]]]:
    """The pages in shares that are worth a process's while. Where the stream is cut, the pages before that come first."""
    share: list[tuple[Any, Body]] = []
    size = 0
    try:
        for name, body in stream:
            share.append((name, body))
            size += len(body)
            if len(share) == _PAGES or size >= _BYTES:
                yield share
                share, size = [], 0
    except Cut:
        yield share
        raise
    yield share


def answers(job: Job, stream: Iterator[tuple[Any, Body]], jobs: int = 1) -> Iterator[str]:
    """The lines of the pages, in their order, by so many processes. At most two shares a process are held at a time, however long the stream is."""
    if jobs == 1:
        for share in shares(stream):
            yield from answer_all(job, share)
        return
    workers: list[_Worker] = []
    try:
        for _ in range(jobs):
            workers.append(_Worker(job, workers))
        yield from _in_order(workers, shares(stream))
    finally:
        for worker in workers:
            worker.end()


class _Worker:
    """A process that answers shares, one at a time, over a connection that no other process has: so where it is ended, in whatever it does, that is seen."""

    def __init__(self, job: Job, others: Sequence[_Worker]) -> None:
        context = multiprocessing.get_context("fork")
        self.connection, theirs = context.Pipe()
        inherited = [self.connection, *(it.connection for it in others)]
        self.process = context.Process(target=_work, args=(job, theirs, inherited), daemon=True)
        self.process.start()
        theirs.close()

    def send(self, share: list[tuple[Any, Body]]) -> None:
        try:
            self.connection.send(share)
        except OSError as why:
            raise Ended from why

    def receive(self) -> list[str]:
        try:
            return self.connection.recv()
        except (EOFError, OSError) as why:
            raise Ended from why

    def end(self) -> None:
        self.connection.close()
        self.process.join()


def _work(job: Job, connection: Connection, inherited: Sequence[Connection]) -> None:
    """Answers shares until there are no more, or nobody asks."""
    signal.signal(signal.SIGINT, signal.SIG_IGN)
    for it in inherited:
        it.close()
    try:
        while True:
            connection.send(answer_all(job, connection.recv()))
    except (EOFError, OSError):
        pass


def _in_order(workers: Sequence[_Worker], waiting: Iterator[list[tuple[Any, Body]]]) -> Iterator[str]:
    """The lines of shares in their order, each share by a worker that has no other."""
    idle = [*workers]
    busy: dict[Connection, tuple[_Worker, int]] = {}
    done: dict[int, list[str]] = {}
    asked = given = 0
    cut: Optional[Cut] = None
    share: Optional[list[tuple[Any, Body]]] = []
    while share is not None or busy:
        while share is not None and idle and asked - given < 2 * len(workers):
            try:
                share = next(waiting, None)
            except Cut as why:
                cut, share = why, None
            if share is not None:
                worker = idle.pop()
                worker.send(share)
                busy[worker.connection] = worker, asked
                asked += 1
        for connection in wait([*busy]) if busy else ():
            assert isinstance(connection, Connection)
            worker, number = busy.pop(connection)
            done[number] = worker.receive()
            idle.append(worker)
        while given in done:
            yield from done.pop(given)
            given += 1
    if cut is not None:
        raise cut


# THE PROGRAM


class _Progress:
    """How many pages were answered, on standard error where that is a terminal."""

    def __init__(self) -> None:
        self.shown = sys.stderr.isatty()
        self.begun = self.last = time.monotonic()
        self.count = 0

    def step(self) -> None:
        self.count += 1
        now = time.monotonic()
        if self.shown and now - self.last >= _SECONDS:
            self.last = now
            self._show("")

    def end(self) -> None:
        if self.shown:
            self._show("\n")

    def _show(self, end: str) -> None:
        seconds = max(time.monotonic() - self.begun, 1e-9)
        print(f"\r{self.count} pages, {self.count / seconds:.0f} a second", end=end, file=sys.stderr, flush=True)


def _arguments(words: Optional[Sequence[str]]) -> argparse.Namespace:
    parser = argparse.ArgumentParser(prog="python3 -m zilqumet", description=__doc__, formatter_class=argparse.RawDescriptionHelpFormatter)
    batch = parser.add_subparsers(required=True, metavar="COMMAND").add_parser("batch", help="a line of JSON for each page of a stream")
    batch.add_argument("input", nargs="?", default="-", metavar="INPUT", help="a tar, or lines of JSON; - for standard input [default: -]")
    batch.add_argument("--jobs", type=int, default=os.cpu_count() or 1, metavar="N", help="how many processes work [default: one a processor]")
    batch.add_argument("--normalise", action="store_true", help="write each page's text too")
    batch.add_argument("--foreign", choices=["refuse", "parse"], default="refuse", help="what is done with SVG and MathML [default: refuse]")
    for name, what in (("nodes", "nodes"), ("held", "code points that nodes hold"), ("input", "code points of the page"), ("steps", "counted steps")):
        batch.add_argument(f"--max-{name}", type=int, metavar="N", help=f"refuse a page of more {what}")
    given = parser.parse_args(words)
    if given.jobs < 1:
        batch.error("argument --jobs: at least 1")
    return given


def main(words: Optional[Sequence[str]] = None) -> int:
    given = _arguments(words)
    job = Job(given.normalise, given.foreign == "parse", given.max_nodes, given.max_held, given.max_input, given.max_steps)
    progress = _Progress()
    try:
        with sys.stdin.buffer if given.input == "-" else open(given.input, "rb") as stream:
            for line in answers(job, pages(stream), given.jobs):
                sys.stdout.write(line + "\n")
                progress.step()
        sys.stdout.flush()
    except Cut as why:
        return _fault(progress, str(why))
    except Ended:
        return _fault(progress, "one of the processes was ended")
    except OSError as why:
        return _fault(progress, str(why))
    progress.end()
    return 0


def _fault(progress: _Progress, why: str) -> int:
    sys.stdout.flush()
    progress.end()
    print(f"fault: {why}", file=sys.stderr)
    return 3

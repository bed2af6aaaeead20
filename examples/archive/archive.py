#!/usr/bin/env python3
"""archive.py SOURCE OUT: parses, normalises and counts many pages, by the workers of a Dask cluster.

SOURCE is a tar of pages, a file of lines of JSON (as `python3 -m zilqumet batch` reads them), or a folder, below which each file .html or .htm is a page. OUT
gets a line of JSON for each, in order: its name, its status, what it counts and its text. With --scheduler ADDRESS the work goes to a cluster that runs already;
else --workers N processes of this machine are started. It wants zilqumet and Debian's python3-distributed, on the workers too.

A worker that is ended loses nothing: its pages are parsed by another. Pages at which workers end again and again, as for want of memory, are lines with the
status "killed". A hostile page costs what --max-nodes, --max-held and --max-steps allow, and no more.
"""

import argparse
import json
import sys
from collections import deque
from pathlib import Path

from distributed import Client, KilledWorker, LocalCluster
from zilqumet.batch import Cut, Job, answer_all, pages, shares

# shares that are under way for each worker: enough to keep it busy, and so few that memory stays flat
AHEAD = 3


def pages_below(folder):
    for path in sorted(it for it in folder.rglob("*.htm*") if it.suffix in (".html", ".htm") and it.is_file()):
        yield str(path.relative_to(folder)), path.read_bytes()


def lines_of(share, future):
    """The lines of a share; where its workers were ended, one line a page that says so."""
    try:
        return future.result()
    except KilledWorker:
        return [json.dumps({"name": name, "status": "killed"}) for name, _ in share]


def archive(client, job, stream, work=answer_all):
    """Yields the lines of all pages, in order."""
    under_way = deque()
    most = AHEAD * max(1, len(client.scheduler_info()["workers"]))
    for share in shares(stream):
        under_way.append((share, client.submit(work, job, share, pure=False)))
        if len(under_way) > most:
            yield from lines_of(*under_way.popleft())
    while under_way:
        yield from lines_of(*under_way.popleft())


def arguments():
    words = argparse.ArgumentParser(description=__doc__, formatter_class=argparse.RawDescriptionHelpFormatter)
    words.add_argument("source", metavar="SOURCE", type=Path)
    words.add_argument("out", metavar="OUT", type=Path)
    words.add_argument("--scheduler", metavar="ADDRESS")
    words.add_argument("--workers", metavar="N", type=int, default=2)
    words.add_argument("--foreign", choices=["refuse", "parse"], default="parse")
    words.add_argument("--max-nodes", metavar="N", type=int)
    words.add_argument("--max-held", metavar="N", type=int)
    words.add_argument("--max-steps", metavar="N", type=int)
    return words.parse_args()


def run(given, client):
    job = Job(True, given.foreign == "parse", given.max_nodes, given.max_held, None, given.max_steps)
    with given.out.open("w", encoding="utf-8") as out:
        if given.source.is_dir():
            out.writelines(f"{line}\n" for line in archive(client, job, pages_below(given.source)))
        else:
            with given.source.open("rb") as stream:
                out.writelines(f"{line}\n" for line in archive(client, job, pages(stream)))


def main():
    given = arguments()
    try:
        if given.scheduler:
            with Client(given.scheduler) as client:
                run(given, client)
        else:
            with LocalCluster(n_workers=given.workers, threads_per_worker=1, dashboard_address=None) as cluster, Client(cluster) as client:
                run(given, client)
    except Cut as why:
        sys.exit(f"archive: {why}")


if __name__ == "__main__":
    main()

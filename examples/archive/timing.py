#!/usr/bin/env python3
"""timing.py FOLDER [N]: pages a second by 1, 2 and 4 workers, over the first N pages (default 2,000) below a folder: zilqumet, and html5-parser (Debian's
python3-html5-parser), each with its tree counted, in one harness."""

import sys
import time
from itertools import islice
from pathlib import Path

from archive import archive, pages_below
from distributed import Client, LocalCluster
from zilqumet.batch import Job, answer_all


def by_html5_parser(job, share):
    """How many elements each page has, by html5-parser."""
    from html5_parser import parse

    return [str(sum(1 for _ in parse(body, transport_encoding="utf-8", return_root=True).iter())) for _, body in share]


def seconds(client, stream, work):
    begun = time.monotonic()
    count = sum(1 for _ in archive(client, Job(foreign=True), iter(stream), work))
    assert count == len(stream), "a page is missing"
    return time.monotonic() - begun


def main():
    stream = [*islice(pages_below(Path(sys.argv[1])), int(sys.argv[2]) if len(sys.argv) > 2 else 2000)]
    print(f"{len(stream)} pages, {sum(len(body) for _, body in stream):,} bytes")
    for workers in (1, 2, 4):
        with LocalCluster(n_workers=workers, threads_per_worker=1, dashboard_address=None) as cluster, Client(cluster) as client:
            for name, work in (("zilqumet", answer_all), ("html5-parser", by_html5_parser)):
                seconds(client, stream[: 64 * workers], work)
                print(f"{name}, {workers} workers: {len(stream) / seconds(client, stream, work):.0f} pages a second", flush=True)


if __name__ == "__main__":
    main()

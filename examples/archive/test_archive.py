#!/usr/bin/env python3
"""The archive on a cluster of processes of this machine: a worker is ended half-way, and the lines are whole; a hostile page costs its limit."""

import json
import os
import signal
import tempfile
import time
import unittest
from pathlib import Path

import zilqumet
from archive import archive, pages_below
from distributed import Client, LocalCluster
from zilqumet.batch import Job, answer_all

COUNT = 600


def slowly(job, share):
    """So that there is a half-way."""
    time.sleep(0.2)
    return answer_all(job, share)


class Archive(unittest.TestCase):
    def setUp(self):
        self.folder = tempfile.TemporaryDirectory()
        for number in range(COUNT):
            Path(self.folder.name, f"{number:04}.html").write_bytes(b"<title>%d</title><p>x<table>%s" % (number, b"<tr><td>y" * (number % 7)))
        self.cluster = LocalCluster(n_workers=3, threads_per_worker=1, dashboard_address=None)
        self.client = Client(self.cluster)

    def tearDown(self):
        self.client.close()
        self.cluster.close()
        self.folder.cleanup()

    def test_a_worker_that_is_ended_loses_nothing(self):
        lines, pid = [], None
        for line in archive(self.client, Job(normalise=True), pages_below(Path(self.folder.name)), slowly):
            lines.append(json.loads(line))
            if pid is None:
                pid = next(iter(self.client.run(os.getpid).values()))
                os.kill(pid, signal.SIGKILL)
        self.assertIsNotNone(pid)
        self.assertEqual([it["name"] for it in lines], [f"{number:04}.html" for number in range(COUNT)])
        for it in lines:
            self.assertEqual((it["status"], it["text"]), ("ok", zilqumet.normalise(Path(self.folder.name, it["name"]).read_bytes())))

    def test_a_hostile_page_costs_its_limit(self):
        page = b"<p>" + b"".join(b"<b id=%d>" % number for number in range(2000)) + b"<p>x" * 2000
        stream = iter([("small", b"<p>x"), ("hostile", page), ("small", b"<p>x")])
        lines = [json.loads(it) for it in archive(self.client, Job(max_nodes=10_000, max_steps=1_000_000), stream)]
        self.assertEqual([it["status"] for it in lines][::2], ["ok", "ok"])
        self.assertIn(lines[1]["status"], ("node budget", "step budget"))


if __name__ == "__main__":
    unittest.main()

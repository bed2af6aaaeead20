"""Many pages at once: each as it is alone, in order; what is refused is a line; a cut stream and an ended process are told."""

import base64
import io
import json
import os
import signal
import subprocess
import sys
import tarfile
import threading
import time
import tracemalloc
import unittest
from pathlib import Path

import zilqumet
import zilqumet.batch

PAGES = [b"<p>One<p>Two", b"", b"<svg><path/>", b"\xff\xfe<b>", b"<table>x<td>y", "<p>é<title>ü".encode()] * 40


def lines(pages):
    return b"".join(json.dumps({"name": number, "body": base64.b64encode(page).decode()}).encode() + b"\n" for number, page in enumerate(pages))


def tar(pages, mode="w:gz"):
    held = io.BytesIO()
    with tarfile.open(fileobj=held, mode=mode) as made:
        for number, page in enumerate(pages):
            info = tarfile.TarInfo(str(number))
            info.size = len(page)
            made.addfile(info, io.BytesIO(page))
    return held.getvalue()


def batch(stream, *words):
    ran = subprocess.run([sys.executable, "-m", "zilqumet", "batch", *words], input=stream, capture_output=True)
    return ran.returncode, [json.loads(it) for it in ran.stdout.splitlines()], ran.stderr.decode()


def alone(name, page, **options):
    """What a page has to come to, by single calls."""
    try:
        counts = zilqumet.parse(page, **options).counts
    except zilqumet.Refused as why:
        return {"name": name, "status": why.cause, **({} if why.place is None else {"place": why.place})}
    return {"name": name, "status": "ok", **counts._asdict(), "text": zilqumet.normalise(page, **options)}


class Batch(unittest.TestCase):
    def test_lines_are_answered_in_order(self):
        for jobs in ("1", "3"):
            status, rows, told = batch(lines(PAGES), "--normalise", "--jobs", jobs)
            self.assertEqual((status, told), (0, ""))
            self.assertEqual(rows, [alone(number, page) for number, page in enumerate(PAGES)])

    def test_a_tar(self):
        status, rows, _ = batch(tar(PAGES), "--normalise", "--foreign", "parse", "--max-nodes", "6", "--jobs", "2")
        self.assertEqual(status, 0)
        self.assertEqual(rows, [alone(str(number), page, foreign=True, max_nodes=6) for number, page in enumerate(PAGES)])

    def test_what_is_refused_is_a_line(self):
        stream = b'{"name": "a", "text": "<svg>"}\nno line\n{"body": "%"}\n\n{"text": "<p>x"}\n{"text": "<p>x", "name": [1]}\n'
        status, rows, _ = batch(stream, "--jobs", "1")
        self.assertEqual(status, 0)
        self.assertEqual([(it["name"], it["status"]) for it in rows], [("a", "foreign svg"), (2, "bad line 2"), (3, "bad line 3"), (5, "ok"), ([1], "ok")])
        self.assertEqual((rows[0]["place"], rows[3]["nodes"]), (0, 6))

    def test_a_cut_tar_is_told(self):
        whole = tar(PAGES)
        for jobs in ("1", "2"):
            status, rows, told = batch(whole[: len(whole) // 2], "--jobs", jobs)
            self.assertEqual(status, 3)
            self.assertIn("the tar ends too early", told)
            self.assertEqual([it["name"] for it in rows], [str(it) for it in range(len(rows))])

    def test_what_came_whole_before_a_cut_is_answered(self):
        whole = tar([b"x" * 700] * 100, "w")
        for jobs in ("1", "2"):
            # each has a block of its own, and two of the page: cut behind a page, in one, in a block before one, and before the mark of the end
            for blocks, count in ((3 * 70, 70), (3 * 70 + 2, 70), (3 * 70 + 0.5, 70), (3 * 100, 100)):
                status, rows, told = batch(whole[: int(512 * blocks)], "--jobs", jobs)
                self.assertEqual((status, [it["name"] for it in rows]), (3, [str(it) for it in range(count)]))
                self.assertIn("the tar ends too early", told)

    def test_a_tar_is_not_held(self):
        stream = io.BufferedReader(io.BytesIO(tar([b"<p>"] * 5000, "w")))
        tracemalloc.start()
        count = sum(1 for _ in zilqumet.batch.pages(stream))
        most = tracemalloc.get_traced_memory()[1]
        tracemalloc.stop()
        self.assertEqual(count, 5000)
        self.assertLess(most, 1_000_000)

    def test_no_such_file_is_told(self):
        status, rows, told = batch(b"", "no-such-file")
        self.assertEqual((status, rows), (3, []))
        self.assertIn("no-such-file", told)

    def test_an_ended_process_is_told(self):
        words = [sys.executable, "-m", "zilqumet", "batch", "--jobs", "2"]
        with subprocess.Popen(words, stdin=subprocess.PIPE, stdout=subprocess.PIPE, stderr=subprocess.PIPE) as ran:
            ran.stdin.write(lines(PAGES * 4))
            ran.stdin.flush()
            for _ in range(1000):
                children = Path(f"/proc/{ran.pid}/task/{ran.pid}/children").read_text().split()
                if children:
                    break
                time.sleep(0.01)
            os.kill(int(children[0]), signal.SIGKILL)
            out, told = ran.communicate(lines(PAGES * 4))
        self.assertEqual(ran.returncode, 3)
        self.assertIn("one of the processes was ended", told.decode())
        names = [json.loads(it)["name"] for it in out.splitlines()]
        self.assertEqual(names, (list(range(len(PAGES) * 4)) * 2)[: len(names)])

    def test_a_process_may_end_in_the_middle_of_its_answer(self):
        stream = lines([b"<p>" * 100_000] * 40)
        words = [sys.executable, "-m", "zilqumet", "batch", "--normalise", "--jobs", "3"]
        for wait in range(6):
            with subprocess.Popen(words, stdin=subprocess.PIPE, stdout=subprocess.PIPE, stderr=subprocess.PIPE) as ran:
                ran.stdin.write(stream[:1000])
                ran.stdin.flush()
                for _ in range(1000):
                    children = Path(f"/proc/{ran.pid}/task/{ran.pid}/children").read_text().split()
                    if len(children) == 3:
                        break
                    time.sleep(0.01)
                threading.Timer(0.03 * wait, os.kill, (int(children[wait % 3]), signal.SIGKILL)).start()
                out, told = ran.communicate(stream[1000:], timeout=60)
            self.assertEqual((ran.returncode, told), (3, b"fault: one of the processes was ended\n"))
            self.assertEqual([json.loads(it)["name"] for it in out.splitlines()], [*range(out.count(b"\n"))])


if __name__ == "__main__":
    unittest.main()

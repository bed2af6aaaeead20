"""A program whose input comes in pieces, on a pipe of which the next piece is written once the one before was read."""
import fcntl
import struct
import subprocess
import termios
import time


def in_pieces(chance, page):
    """Returns a page cut at random places."""
    cuts = sorted(chance.sample(range(len(page) + 1), min(len(page), chance.randrange(1, 6))))
    return [page[start:end] for start, end in zip([0, *cuts], [*cuts, len(page)])]


def is_read(pipe):
    """Returns whether all that was written to a pipe was read."""
    return struct.unpack("i", fcntl.ioctl(pipe, termios.FIONREAD, b"\0" * 4))[0] == 0


def run_on(words, pieces):
    """Runs a program on pieces that come one by one. Returns it as it ended, with what it wrote, which has to fit into a pipe until all was read."""
    with subprocess.Popen(words, stdin=subprocess.PIPE, stdout=subprocess.PIPE, stderr=subprocess.PIPE, bufsize=0) as run:
        try:
            for it in pieces:
                run.stdin.write(it)
                while not is_read(run.stdin) and run.poll() is None:
                    time.sleep(0)
            run.stdin.close()
        except BrokenPipeError:
            pass
        run.stdin = None
        out, errors = run.communicate()
    return subprocess.CompletedProcess(words, run.returncode, out, errors)

"""Parses a page from a socket as it comes (here one end of a pair, whose other end a thread writes to), and prints it normalised."""
import socket
import sys
import threading

import zilqumet


def send(end: socket.socket) -> None:
    with end:
        end.sendall(b"<p>One<p>Two")


ours, theirs = socket.socketpair()
threading.Thread(target=send, args=(theirs,)).start()
try:
    with zilqumet.Parser(max_input=1 << 20) as parser:
        while piece := ours.recv(7):
            parser.feed(piece)
        print(parser.finish().serialise(), end="")
except zilqumet.Refused as refused:
    sys.exit(f"stream: {refused}")
finally:
    ours.close()

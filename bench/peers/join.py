"""Joins standard input and output with a Unix socket."""

import os
import select
import socket
import sys

line = socket.socket(socket.AF_UNIX)
line.connect(sys.argv[1])
while True:
    ready, _, _ = select.select([0, line], [], [])
    if line in ready:
        more = line.recv(65536)
        if not more:
            break
        os.write(1, more)
    if 0 in ready:
        more = os.read(0, 65536)
        if not more:
            break
        line.sendall(more)

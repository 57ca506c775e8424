#!/usr/bin/python3
"""A terminal at the end of a slow line: what a command draws comes in pieces, with a pause behind
each.

usage: checks/desk_parts/slowly.py COMMAND ..
"""

from __future__ import annotations

import fcntl
import os
import pty
import select
import sys
import termios
import time
import tty

PIECE = 2000  # bytes
PAUSE = 0.15  # seconds


def main(command: list[str]) -> int:
    """The status of the command."""
    size = fcntl.ioctl(0, termios.TIOCGWINSZ, bytes(8))
    pid, terminal = pty.fork()
    if pid == 0:
        fcntl.ioctl(0, termios.TIOCSWINSZ, size)
        os.execvp(command[0], command)
    tty.setraw(0)
    while True:
        ready, _, _ = select.select([0, terminal], [], [])
        if 0 in ready:
            os.write(terminal, os.read(0, PIECE))
        if terminal in ready:
            try:
                piece = os.read(terminal, PIECE)
            except OSError:  # it has ended
                return os.waitstatus_to_exitcode(os.waitpid(pid, 0)[1])
            os.write(1, piece)
            time.sleep(PAUSE)


if __name__ == "__main__":
    if len(sys.argv) < 2:
        sys.exit(__doc__)
    sys.exit(main(sys.argv[1:]))

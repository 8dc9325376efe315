"""Runs a command and ends it, with all its children, as soon as the process that started this one is gone.

Standard input is a pipe from that process: it ends when that process ends, however it does. This program is the first
of a process group of its own, in which everything is that the command starts.
"""

import os
import signal
import subprocess
import sys
import threading


def _watch():
    os.read(0, 1)
    os.killpg(0, signal.SIGKILL)


def main(command):
    """The status of the command."""
    threading.Thread(target=_watch, daemon=True).start()
    return subprocess.call(command, stdin=subprocess.DEVNULL)


if __name__ == "__main__":
    sys.exit(main(sys.argv[1:]))

"""Runs a command of which one stream is a terminal. The rest of its streams, and its exit status, are this script's own.

terminal.py input COMMAND..          standard input is a terminal at which the input is ended at once
terminal.py lost RECORD COMMAND..    standard input is the other end of a terminal that is gone: it gives the file RECORD, then a read fails
terminal.py errors FILE COMMAND..    standard error is a terminal, and what it shows goes to FILE
"""

import os
import pty
import subprocess
import sys
import termios
import tty


def at_a_terminal(command):
    near, far = pty.openpty()
    # what a person types to end the input
    os.write(near, termios.tcgetattr(far)[6][termios.VEOF])
    return subprocess.run(command, stdin=far).returncode


def from_a_lost_line(record, command):
    near, far = pty.openpty()
    tty.setraw(far)
    with open(record, "rb") as file:
        os.write(far, file.read())
    os.close(far)
    return subprocess.run(command, stdin=near).returncode


def shown(path, command):
    near, far = pty.openpty()
    process = subprocess.Popen(command, stderr=far)
    os.close(far)
    with open(path, "wb") as file:
        try:
            while some := os.read(near, 4096):
                file.write(some)
        except OSError:
            pass  # the last that had the terminal has ended
    return process.wait()


def main(kind, *words):
    if kind == "input":
        return at_a_terminal(words)
    if kind == "lost":
        return from_a_lost_line(words[0], words[1:])
    return shown(words[0], words[1:])


status = main(*sys.argv[1:])
# a death by a signal is told as a shell tells it
sys.exit(128 - status if status < 0 else status)

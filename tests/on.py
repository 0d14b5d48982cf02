"""on.py closed-pipe|terminal|interrupted WORDS..: runs a command with its standard output on a pipe that nobody
reads; or with its standard error on a terminal, and prints what appears there; or interrupts it after two
seconds. The status is the command's. Cases use it."""

import os
import pty
import signal
import subprocess
import sys


def on_closed_pipe(words):
    reader, writer = os.pipe()
    os.close(reader)
    return subprocess.run(words, stdout=writer).returncode


def on_terminal(words):
    ours, theirs = pty.openpty()
    process = subprocess.Popen(words, stderr=theirs)
    os.close(theirs)
    seen = b""
    try:
        while block := os.read(ours, 65536):
            seen += block
    except OSError:  # The end of a terminal.
        pass
    sys.stderr.buffer.write(seen)
    return process.wait()


def interrupted(words):
    process = subprocess.Popen(words)
    try:
        return process.wait(timeout=2)
    except subprocess.TimeoutExpired:
        process.send_signal(signal.SIGINT)
        return process.wait()


if __name__ == "__main__":
    kinds = {"closed-pipe": on_closed_pipe, "terminal": on_terminal, "interrupted": interrupted}
    sys.exit(kinds[sys.argv[1]](sys.argv[2:]))

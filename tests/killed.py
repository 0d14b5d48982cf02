"""killed.py INSTANCE SECONDS COUNT: kills `qapplan solve INSTANCE`, which writes an answer, its JSON and its proof over earlier ones, at COUNT
random moments of the first SECONDS seconds, and then makes sure that each file is the earlier one or whole. It prints how many runs were killed
before, and how many after, all files were replaced. Cases use it."""

import json
import os
import random
import signal
import subprocess
import sys
import tempfile
import time

FILES = ("a.txt", "a.json", "a.proof")
EARLIER = "earlier\n"


def run(room, instance, moment):
    """Runs the program over earlier files in a folder, and kills it after so many seconds."""
    for name in FILES:
        with open(f"{room}/{name}", "w") as it:
            it.write(EARLIER)
    words = ["qapplan", "solve", instance, "--quiet", "--workers", "2", "--out", "a.txt", "--json", "a.json", "--proof", "a.proof"]
    process = subprocess.Popen(words, cwd=room, stdout=subprocess.DEVNULL, stderr=subprocess.DEVNULL, start_new_session=True)
    time.sleep(moment)
    os.killpg(process.pid, signal.SIGKILL)
    process.wait()


def text(room, name):
    with open(f"{room}/{name}") as it:
        return it.read()


def is_whole(room, instance, name):
    """Whether a file is the whole of a new one."""
    if name == "a.proof":
        return subprocess.run(["qapverify", instance, name], cwd=room, stdout=subprocess.DEVNULL, stderr=subprocess.DEVNULL).returncode == 0
    if name == "a.json":
        return json.loads(text(room, name))["status"] == "optimal"
    return text(room, name).endswith(", optimal, proved\n")


def main():
    instance, seconds, count = os.path.abspath(sys.argv[1]), float(sys.argv[2]), int(sys.argv[3])
    draw = random.Random(1)
    new, old = 0, 0
    for _ in range(count):
        with tempfile.TemporaryDirectory() as room:
            run(room, instance, draw.uniform(0, seconds))
            replaced = [name for name in FILES if text(room, name) != EARLIER]
            for name in replaced:
                if not is_whole(room, instance, name):
                    sys.exit(f"{name} is part of a file")
            new += len(replaced) == len(FILES)
            old += not replaced
    print(f"killed before {min(old, 1)}, after {min(new, 1)}")


main()

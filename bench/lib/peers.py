"""The programs of bench/peers: what bench/run times, in other languages."""

import shutil
import subprocess
import time
from pathlib import Path

PEERS = Path(__file__).resolve().parents[1] / "peers"
TRIES = 3


def ada(folder):
    """The command of the rendezvous in Ada, built in a folder."""
    source = PEERS / "rendezvous.adb"
    program = folder / "rendezvous"
    subprocess.run(["gnatmake", "-q", "-O2", source, "-o", program, "-D", folder], cwd=folder, check=True)
    return [program]


def java(folder):
    """The command of the rendezvous in Java, built in a folder."""
    subprocess.run(["javac", "-d", folder, PEERS / "Rendezvous.java"], check=True)
    return ["java", "-cp", folder, "Rendezvous"]


def python(name):
    """How a program in Python is made, which needs no building."""
    return lambda folder: ["python3", PEERS / f"{name}.py"]


# By the name of a run: who runs the same, the tool that this needs, and how its command is made.
PEERS_OF = {
    "rendezvous": [
        ("tasks of Ada", "gnatmake", ada),
        ("threads of Java", "javac", java),
        ("threads of Python", "python3", python("rendezvous")),
    ],
    "shared counter": [("turns of a loop in Python", "python3", python("counter"))],
}


def least_of(command):
    """The least milliseconds of some runs of a command."""

    def once():
        begun = time.monotonic()
        subprocess.run(command, stdin=subprocess.DEVNULL, stdout=subprocess.DEVNULL, check=True)
        return (time.monotonic() - begun) * 1000

    return min(once() for _ in range(TRIES))


def peers_of(name, counts, folder):
    """The peers of a run that can be made here, each with its least milliseconds."""
    for peer, tool, made in PEERS_OF.get(name, []):
        if shutil.which(tool):
            yield peer, least_of([*made(folder), str(counts["COUNT"])])

"""The crates of the repository by crates.txt: copies of those below a crate, and programs that stand on them."""

import shutil
import subprocess
import sys
from pathlib import Path

TOP = Path(__file__).resolve().parents[2]
PARTS = ("src", "specs", "proofs")
LINES_OF_A_FAILURE = 20


def lines_by_crate():
    """Each crate's line of crates.txt."""
    lines = (line.partition("#")[0].strip() for line in (TOP / "crates.txt").read_text().splitlines())
    return {line.partition(":")[0].split()[0]: line for line in lines if ":" in line}


def below(names):
    """These crates and those that they stand on, each after those that it uses. Libraries of the kit aren't told."""
    lines, found = lines_by_crate(), {}

    def reach(name):
        if name in lines and name not in found:
            for used in lines[name].partition(":")[2].split():
                reach(used)
            found[name] = None

    for name in names:
        reach(name)
    return list(found)


def copy_below(names, to):
    """Makes a repository in a folder of these crates and those that they stand on."""
    lines, crates = lines_by_crate(), below(names)
    for crate in crates:
        for part in PARTS:
            if (TOP / "crates" / crate / part).is_dir():
                shutil.copytree(TOP / "crates" / crate / part, to / "crates" / crate / part)
    (to / "crates.txt").write_text("".join(f"{lines[crate]}\n" for crate in crates))
    shutil.copy(TOP / "HANDLES", to)
    # rt looks for the top of a repository.
    (to / ".git").mkdir()


def build_program(to, name, uses, source):
    """Builds a program over crates of the repository and libraries of the kit, in a copy of what it stands on, and gives
    its path. What earlier runs of `rt ci` passed on this machine isn't proved again; from nothing that of the front
    takes an hour."""
    copy_below(uses, to)
    with (to / "crates.txt").open("a") as listed:
        listed.write(f"{name}: {' '.join(uses)}\n")
    crate = to / "crates" / name
    (crate / "src").mkdir(parents=True)
    (crate / "src" / "main.rt").write_text(source)
    subprocess.run(["rt", "fmt"], cwd=crate, stdin=subprocess.DEVNULL, stdout=subprocess.DEVNULL, check=True)
    how = {"stdin": subprocess.DEVNULL, "stdout": subprocess.PIPE, "stderr": subprocess.STDOUT}
    # rt also runs the program, without input, and then finds no output to compare with, so its status says nothing.
    said = subprocess.run(["rt", "ci"], cwd=to, **how).stdout.decode(errors="replace")
    program = crate / "out" / name
    if not program.is_file():
        print("\n".join(said.splitlines()[-LINES_OF_A_FAILURE:]), file=sys.stderr)
        sys.exit(2)
    return program

"""Sources of given sizes, and bounds on the time that they take."""

import re
import subprocess
import time

SIZES = (131_072, 262_144, 524_288, 1_048_576)
# Twice the size may take so many times as long. An n log n takes little more than twice, a square four times.
GROWTH = 3.0
# Less isn't looked at for its growth.
LEAST_MS = 100


def exact_source(size, head, line, tail):
    """A head, a line again and again, blank lines, and a tail, of exactly `size` bytes."""
    left = size - len(head) - len(tail)
    count = left // (len(line) + 1)
    return head + f"{line}\n" * count + "\n" * (left - count * (len(line) + 1)) + tail


def numbered(text, number):
    """The text with the number of its line for @, and that of the next for ^."""
    return text.replace("@", f"{number:06}").replace("^", f"{number + 1:06}")


def places(count, order):
    """The numbers of the lines as they stand: in order, backwards or shuffled."""
    if order == "shuffled":
        return [(place * 7919 + 17) % count for place in range(count)]
    return range(count) if order == "in order" else reversed(range(count))


def numbered_source(size, head, line, tail, second="", last="", order="in order"):
    """A source of about `size` bytes: a head, a numbered line again and again, a tail, and if there is one a second
    such line as often, and an end. In the tail @ is the number of lines."""
    step = len(numbered(line, 0)) + 1 + (len(numbered(second, 0)) + 1 if second else 0)
    count = (size - len(head) - len(tail) - len(last) - 20) // step
    count -= count % 7919 == 0
    lines = [numbered(head, 0), *(numbered(line, place) for place in places(count, order)), numbered(tail, count)]
    if second:
        lines += [*(numbered(second, place) for place in range(count)), last]
    return "".join(f"{line}\n" for line in lines)


def run(command, source):
    """What a program tells of a source on its standard input, and its milliseconds as told in its words, by name."""
    ran = subprocess.run(command, input=source.encode(), capture_output=True)
    told = ran.stdout.decode().strip()
    return told, {name: int(number) for name, number in re.findall(r"(\w+) (\d+) ms", told)}


def timed(command):
    """The last line that a command writes, on either stream, and its milliseconds by the clock."""
    begun = time.monotonic()
    ran = subprocess.run(command, stdin=subprocess.DEVNULL, stdout=subprocess.PIPE, stderr=subprocess.STDOUT)
    took = int((time.monotonic() - begun) * 1000)
    return (ran.stdout.decode(errors="replace").splitlines() or [""])[-1], took


class Bounds:
    """Prints what was measured, and holds it to a bound on the largest source of each kind and to the growth."""

    def __init__(self, name, most_ms):
        self.name = name
        self.most_ms = most_ms
        self.worst = 0
        self.before = {}
        self.broken = []

    def note(self, kind, size, told, took, may_grow=False):
        """Notes the milliseconds that a source of this kind and size took, and whether they may grow faster."""
        print(f"{self.name}: {size} bytes of {kind}: {told}", flush=True)
        half = None if may_grow else self.before.get(kind)
        self.before[kind] = took
        self.worst = max(self.worst, took)
        if took > self.most_ms:
            self.broken.append(f"{size} bytes of {kind} took {took} ms")
        if half and took > LEAST_MS and took > GROWTH * half:
            self.broken.append(f"{size} bytes of {kind} took {took} ms, and half of it {half}")

    def status(self):
        """Says whether the bounds held: 0 where they did, else 1."""
        bound = f"at most {self.most_ms} ms, and {GROWTH:.0f} times as long for twice the size"
        print(f"{self.name}: longest {self.worst} ms; the bound is {bound}")
        for line in self.broken:
            print(f"{self.name}: above the bound: {line}")
        return 1 if self.broken else 0

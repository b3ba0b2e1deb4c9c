"""Runs the programs of the three engines, and the loops by hand."""
import html
import os
import re
import subprocess
import sys
import tempfile

HERE = os.path.dirname(os.path.abspath(__file__))
OUT = os.path.join(HERE, "out")
HAND = os.path.join(OUT, "hand")
COMMANDS = {
    "ours": [os.environ.get("OURS", os.path.join(OUT, "ours"))],
    "tera1": [os.environ.get("TERA1", os.path.join(OUT, "tera1", "target", "release", "tera1_peer"))],
    "jinja2": [sys.executable, os.path.join(HERE, "jinja2_peer.py")],
}
# A round is as many renderings as take so many nanoseconds; there are at most ten of them, and fewer where ten take longer than so many.
ROUND, ROUNDS = 2_000_000, 100_000_000


def given(row, engine, work, rounds=1, times=1):
    """What a program reads."""
    parts = "".join(f"\x01{name}\x02{text}" for name, text in row.texts[engine].items())
    return f"{work} {row.data} {row.size} {rounds} {times}\n{parts}".encode()


def printed(engine, data):
    return subprocess.run(COMMANDS[engine], input=data, capture_output=True, check=True).stdout.decode()


def text_of(row, engine):
    """What is rendered, with nothing of how a sign is escaped and how a truth value is spelled."""
    return html.unescape(printed(engine, given(row, engine, "print"))).lower()


def nanoseconds(row, engine, work, rounds, times):
    """The fastest of so many rounds, for one time."""
    lines = [line.split() for line in printed(engine, given(row, engine, work, rounds, times)).splitlines()]
    if any(words[0] != "true" for words in lines):
        sys.exit(f"{row.name}: {engine} refuses it")
    return min(int(words[1]) for words in lines) / times


def least(row, work, passes):
    """The least nanoseconds of each engine, which take turns."""
    first = {engine: nanoseconds(row, engine, work, 2, 1) for engine in row.texts}
    found = dict(first)
    for _ in range(passes):
        for engine, taken in first.items():
            times = 1 if work == "read" else max(1, int(ROUND / taken))
            rounds = max(1, min(10, int(ROUNDS / taken)))
            found[engine] = min(found[engine], nanoseconds(row, engine, work, rounds, times))
    return found


def by_hand():
    """The least nanoseconds of each loop by hand, where these are built."""
    if not os.path.exists(HAND):
        return {}
    lines = subprocess.run([HAND], capture_output=True, check=True).stdout.decode().splitlines()
    return {word: int(taken) for word, taken in (line.split() for line in lines)}


def callgrind(engine, data, out="/dev/null"):
    """How many instructions a run takes."""
    command = ["valgrind", "--tool=callgrind", f"--callgrind-out-file={out}", *COMMANDS[engine]]
    words = subprocess.run(command, input=data, stdout=subprocess.DEVNULL, stderr=subprocess.PIPE, check=True).stderr.decode().split()
    return int(words[words.index("Collected") + 2])


def runs(row, engine, work):
    """Two inputs of which the second does the work once more."""
    counts = ((1, 1), (2, 1)) if work == "read" else ((1, 1), (1, 2))
    return [given(row, engine, work, *count) for count in counts]


def instructions(row, engine, work):
    """The instructions of one time: those of two times, less those of one."""
    once, twice = (callgrind(engine, data) for data in runs(row, engine, work))
    return twice - once


def function(line):
    """The name of a function in a line of callgrind_annotate, without its file, its crate and its types, and its instructions."""
    found = re.match(r"\s*([\d,]+) \([^)]*\)\s+[^:]*:(\S.*?)(?: \[.*)?$", line)
    if not found or found[2].startswith("PROGRAM"):
        return None
    name = re.sub(r"::<.*?>", "", found[2]).split("++")[-1].replace("+", " ")
    return "::".join(name.split("::")[-2:]), int(found[1].replace(",", ""))


def by_function(data):
    """The instructions of each function of ours in a run."""
    with tempfile.NamedTemporaryFile() as out:
        callgrind("ours", data, out.name)
        command = ["callgrind_annotate", "--threshold=100", "--auto=no", out.name]
        lines = subprocess.run(command, capture_output=True, check=True).stdout.decode().splitlines()
    found = {}
    for name, count in filter(None, map(function, lines)):
        found[name] = found.get(name, 0) + count
    return found


def dearest(row, work, most=5):
    """The functions that take most of the instructions of one time, with their shares in per cent."""
    once, twice = (by_function(data) for data in runs(row, "ours", work))
    spent = {name: count - once.get(name, 0) for name, count in twice.items()}
    total = sum(spent.values())
    found = sorted(((100 * count / total, name) for name, count in spent.items()), reverse=True)
    return [(name, share) for share, name in found[:most] if share >= 5]


def peak(row, engine):
    """The most memory of a run that renders once, in millions of bytes. GNU time starts it, for a child's peak is never below that of who starts it."""
    command = ["time", "-f", "%M", *COMMANDS[engine]]
    run = subprocess.run(command, input=given(row, engine, "render"), stdout=subprocess.DEVNULL, stderr=subprocess.PIPE, check=True)
    return int(run.stderr.split()[-1]) * 1024 / 1e6

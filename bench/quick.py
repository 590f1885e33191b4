"""The table of bench/run --quick: processor time and memory of both programs in the rows that matter most, each with its
goal, in a few minutes.

A small C program, launch.c, starts each process and reports its processor time and the most memory that it held. The
runs of a row take turns, and the best time of each program is in the table. Beside a command over a database
is the time of limit.c, a C program that lists the same folders and reads each file once: "times the limit" is our
time by that one. `cc` builds both into a temporary folder.
"""
import os
import random
import tempfile
import time

import advisories
import common
import databases
import timing

HEAD = ["operation", "ours, ms", "most MB", "theirs, ms", "most MB", "ratio", "goal", "limit, ms", "times the limit"]
PACKAGES = 500


class Row:
    """An operation: its name, the words and the input of a call, the goal of the ratio, how often it is run at the most,
    and the words of the limit program, if any."""

    def __init__(self, name, words, goal, runs, data=os.devnull, limit=None):
        self.name, self.words, self.goal, self.runs, self.data, self.limit = name, words, goal, runs, data, limit


def file_of(folder, name, text):
    path = os.path.join(folder, name)
    with open(path, "w") as f:
        f.write(text)
    return path


def of_lines(r, folder):
    """Reading alone, and a clash of the first two requirements."""
    versions = "".join(f"version {r.randint(0, 4)}.{r.randint(0, 9)}.{r.randint(0, 9)}\n" for _ in range(100000))
    lists = [f"patched >= {i}.1.0, < {i + 1}.0.0\n" for i in range(20000)]
    r.shuffle(lists)
    reading = file_of(folder, "versions", versions + "version 1\n")
    clash = file_of(folder, "requirements", "unaffected =0.1.0\npatched =0.1.0\n" + "".join(lists))
    return [Row("`affected`, the last of 100,000 lines malformed", ["affected"], 1.0, 9, data=reading),
            Row("`ranges`, the first two of 20,000 requirements clash", ["ranges"], 1.0, 9, data=clash)]


def of_one_file(r, folder):
    """`lint` and `osv` of one usual file."""
    name, data = advisories.usual_file(r, 1)
    path = os.path.join(folder, name)
    with open(path, "wb") as f:
        f.write(data)
    return [Row("`lint` of one file", ["lint", path], 0.5, 25),
            Row("`osv` of one file", ["osv", path, "2024-01-01T00:00:00Z"], 0.5, 25)]


def of_unlisted(r, folder):
    """An advisory of 1 MiB of a kind that no report lists, and 4,000 packages that it affects."""
    root = os.path.join(folder, "unlisted")
    _, data = advisories.usual_file(r, 1)
    name = data.split(b'package = "')[1].split(b'"')[0].decode()
    data = data.replace(b"[versions]", b'informational = "x"\n\n[versions]', 1) + b"a line of text\n" * 70000
    id_ = data.split(b'id = "')[1].split(b'"')[0].decode()
    databases.write(root, "crates", name, id_ + ".md", data)
    packages = "".join(databases.package(name, f"0.0.{i}", databases.REGISTRY) for i in range(4000))
    lock = file_of(folder, "unlisted.lock", "version = 4\n" + packages)
    return [Row("`audit`, 1 MiB that affects 4,000 packages and is not listed", ["audit", root, lock], 1.0, 9, limit=[root, lock])]


def of_databases(r, folder, sizes):
    """`audit` and `report` over databases of these sizes."""
    rows = []
    for size in sizes:
        root = os.path.join(folder, f"database-{size}")
        databases.usual_database(r, root, size)
        databases.write(folder, f"{size}.lock", databases.usual_lockfile(r, PACKAGES))
        lock = os.path.join(folder, f"{size}.lock")
        runs = 2 if size > 10000 else 9
        rows += [Row(f"`{command}`, {size:,} advisories", [command, root, lock], 0.55, runs, limit=[root, lock])
                 for command in ("audit", "report")]
    return rows


def best_of(launch, programs, row, seconds):
    """The least milliseconds and the most megabytes of each program, the runs taking turns."""
    found, began = [[] for _ in programs], time.perf_counter()
    for at in range(row.runs):
        if at >= 2 and time.perf_counter() - began > seconds:
            break
        for (program, words), runs in zip(programs, found):
            runs.append(timing.one_run(launch, program, words, row.data))
    return [(min(took for took, _ in runs), max(held for _, held in runs)) for runs in found]


def show(options, launch, limit, row):
    programs = [(options.ours, row.words), (options.theirs, row.words)]
    programs += [(limit, row.limit)] if row.limit else []
    ours, theirs, *least = best_of(launch, programs, row, 15)
    cells = [row.name, f"{ours[0]:.1f}", f"{ours[1]:.1f}", f"{theirs[0]:.1f}", f"{theirs[1]:.1f}",
             f"{ours[0] / theirs[0]:.2f}", f"≤ {row.goal}"]
    cells += [f"{least[0][0]:.1f}", f"{ours[0] / least[0][0]:.1f}"] if least else ["", ""]
    print("| " + " | ".join(cells) + " |", flush=True)


def measure(options):
    common.check_programs(options.ours, options.theirs)
    r = random.Random(options.seed)
    print("| " + " | ".join(HEAD) + " |\n" + "|---" * len(HEAD) + "|", flush=True)
    with tempfile.TemporaryDirectory() as folder:
        launch, limit = timing.built(folder, "launch"), timing.built(folder, "limit")
        sizes = [1000, 10000] + [100000] * options.large
        for row in [*of_lines(r, folder), *of_one_file(r, folder), *of_unlisted(r, folder), *of_databases(r, folder, sizes)]:
            show(options, launch, limit, row)

"""The tables of bench/run --checks.

The first has `check` beside `audit` over the same database and lockfile. The second has `check-many` beside one load and
as many readings of lockfiles as its list has paths, measured with rustsec_bench in two ways.

- One process opens the database, and then reads each lockfile of the list from its file, with the graph of its
  dependencies in both directions, as the reader of the Rust crate also resolves them. So it does what `check-many` does except the checks and their lines.
- The sum of a process that opens the database once, and of calls that read the texts of the list's lockfiles, which are
  in memory. For these a process is started for each lockfile; its time without a call is subtracted, so that the start, and
  opening and reading the file, are not part of the sum. These readings are of a text that was read just before, so they take
  less time, and the sum is a harder measure.

All times are processor times. The speed of a machine may change from one second to the next, so the two calls that a ratio
compares take turns, and the ratio that tells most is the median of those of all rounds: of the two times of one round.
Half of these ratios are between the quartiles.

With --counts, the instructions of `check-many` and of that one process instead of times. They repeat from run to run, but
do not show how long memory is waited for.

Each table is there twice: for a database whose advisories are about 500 packages, so that there are many findings, and for
one with a package for each advisory.
"""
import json
import os
import random
import statistics
import tempfile

import common
import databases
import timing

DISTINCT = 50
FEW = 21  # lockfiles of a list whose instructions are counted
ENOUGH = 90.0  # seconds for the rounds of one table
HEAD = ["operation", "size", "best, ms", "median", "most MB", "ratio of best", "of median", "median of the rounds", "quartiles"]


def head(title):
    print(f"\n{title}\n\n| " + " | ".join(HEAD) + " |\n" + "|---" * len(HEAD) + "|", flush=True)


def ratios(times, beside):
    """The ratios of the best times, of the medians and of the rounds."""
    rounds = [a / b for a, b in zip(times, beside)]
    low, middle, high = statistics.quantiles(rounds, n=4) if len(rounds) > 1 else rounds * 3
    both = min(times) / min(beside), statistics.median(times) / statistics.median(beside)
    return [f"{it:.2f}" for it in (*both, middle)] + [f"{low:.2f} to {high:.2f}"]


def row(name, size, times, memory, beside=None):
    """A row of a table: times of one kind, by the side of others of the same rounds, if any."""
    shown = [timing.milliseconds(min(times)), timing.milliseconds(statistics.median(times))]
    cells = [name, str(size), *shown, memory, *(ratios(times, beside) if beside else [""] * 4)]
    print("| " + " | ".join(cells) + " |", flush=True)


def rounds_of(options, calls):
    """The times of calls that take turns."""
    return timing.timed(calls, options.runs, timing.processor_seconds, ENOUGH)


def peak(call):
    return f"{timing.peak(*call) / 1024:.1f}"


def counted(options, root, lock):
    """How many findings there are. `audit` and `check` must agree on that."""
    audit, status = common.answer_of(options.ours, ["audit", root, lock])
    words = audit.decode().splitlines()[-1].split()
    check, other = common.answer_of(options.ours, ["check", root, lock, "--format", "json"])
    findings = len(json.loads(check)["findings"])
    if {status, other} - {0, 1} or int(words[0]) + int(words[2]) != findings:
        raise SystemExit(f"audit: {' '.join(words)}; check: {findings} findings; statuses {status} and {other}")
    return findings


def single(options, root, lock, policy):
    """`check` beside `audit`."""
    findings = counted(options, root, lock)
    head(f"{options.packages} packages, {findings} findings:")
    calls = [("`audit`", ["audit", root, lock]), ("`check --format json`", ["check", root, lock, "--format", "json"]),
             ("`check`", ["check", root, lock]),
             ("`check` with a policy and a baseline", ["check", root, lock, "--policy", policy, "--baseline", lock])]
    pairs = [(options.ours, [(words, os.devnull)]) for _, words in calls]
    found = rounds_of(options, pairs)
    for at, (name, _) in enumerate(calls):
        row(f"{name}; advisories", options.advisories, found[at], peak(pairs[at]), found[0] if at else None)


def list_of(root, locks, number):
    """A file with this number of paths of lockfiles, these in turn."""
    path = os.path.join(os.path.dirname(root), f"list-{number}")
    with open(path, "w") as f:
        f.writelines(locks[at % len(locks)] + "\n" for at in range(number))
    return path


def counted_many(options, root, locks):
    """The instructions of `check-many` and of one load and the readings, in one process. They are counted for one lockfile and
    for a few, and from these follow those of the whole list."""
    calls = [("one load and the readings, in one process", options.checks, lambda path: [(["readings", root, path], os.devnull)]),
             ("`check-many`", options.ours, lambda path: [(["check-many", root], path)])]
    print(f"\n{options.advisories} advisories, lockfiles of {options.packages} packages:\n\n"
          "| operation | instructions for one lockfile | for each more | for the list | ratio |\n" + "|---" * 5 + "|", flush=True)
    first = None
    for name, program, call in calls:
        one, few = [timing.instructions(program, call(list_of(root, locks, number))) for number in (1, FEW)]
        each = (few - one) // (FEW - 1)
        whole = one + (options.lockfiles - 1) * each
        first = first or whole
        print(f"| {name}; lockfiles {options.lockfiles} | {one:,} | {each:,} | {whole:,} | {whole / first:.2f} |", flush=True)


def many(options, root, locks):
    """`check-many` beside one load and the readings of the list's lockfiles, in one process, and beside their sum."""
    lines, _ = common.answer_of(options.ours, ["check-many", root], "\n".join(locks).encode())
    findings = [len(json.loads(line)["check"]["findings"]) for line in lines.splitlines()]
    head(f"{options.advisories} advisories, lockfiles of {options.packages} packages, "
         f"{sum(findings) / len(findings):.1f} findings each:")
    listed = [locks[at % len(locks)] for at in range(options.lockfiles)]
    path = list_of(root, locks, options.lockfiles)
    together = [(options.checks, [(["readings", root, path], os.devnull)]), (options.ours, [(["check-many", root], path)])]
    readings, ours = rounds_of(options, together)
    row("one load and the readings, in one process; lockfiles", options.lockfiles, readings, peak(together[0]))
    row("`check-many`, beside it; lockfiles", options.lockfiles, ours, peak(together[1]), readings)
    calls = [together[1], (options.checks, [(["load", "1", root, locks[0]], os.devnull)]),
             (options.checks, [(["dependencies", str(listed.count(lock)), lock], os.devnull) for lock in locks]),
             (options.checks, [(["dependencies", "0", lock], os.devnull) for lock in locks])]
    ours, load, reading, start = rounds_of(options, calls)
    texts = [a - b for a, b in zip(reading, start)]
    total = [a + b for a, b in zip(load, texts)]
    row("one load; advisories", options.advisories, load, peak(calls[1]))
    row("readings of texts in memory; lockfiles", options.lockfiles, texts, peak(calls[2]))
    row("the sum of both", "", total, "")
    row("`check-many`, beside the sum; lockfiles", options.lockfiles, ours, peak(calls[0]), total)


def measure(options):
    common.check_programs(options.ours, options.checks)
    for names in (500, options.advisories):
        r = random.Random(f"{options.seed} {names}")
        with tempfile.TemporaryDirectory() as folder:
            root, policy = os.path.join(folder, "database"), os.path.join(folder, "audit.toml")
            databases.usual_database(r, root, options.advisories, names)
            with open(policy, "w") as f:
                f.write('[advisories]\nignore = ["RUSTSEC-2016-0001"]\nseverity_threshold = "medium"\n')
            locks = []
            for at in range(min(DISTINCT, options.lockfiles)):
                databases.write(folder, f"{at}.lock", databases.tied_lockfile(r, options.packages, names))
                locks.append(os.path.join(folder, f"{at}.lock"))
            if options.counts:
                counted_many(options, root, locks)
                continue
            single(options, root, locks[0], policy)
            many(options, root, locks)

"""Times and memory of whole commands, and how a table shows them."""
import os
import re
import subprocess
import tempfile
import time

ENOUGH = 20.0  # seconds for the runs of one row, after the second run


def seconds(program, calls):
    """How long the calls take, one after the other."""
    start = time.perf_counter()
    for words, path in calls:
        with open(path, "rb") as data:
            subprocess.run([program, *words], stdin=data, stdout=subprocess.DEVNULL, stderr=subprocess.DEVNULL)
    return time.perf_counter() - start


def processor_seconds(program, calls):
    """The processor time of the calls: that of the processes themselves and of the system for them."""
    total = 0.0
    for words, path in calls:
        with open(path, "rb") as data:
            process = subprocess.Popen([program, *words], stdin=data, stdout=subprocess.DEVNULL, stderr=subprocess.DEVNULL)
            _, _, used = os.wait4(process.pid, 0)
            process.returncode = 0
        total += used.ru_utime + used.ru_stime
    return total


def built(folder, name):
    """A C program of this folder, built."""
    path = os.path.join(folder, name)
    source = os.path.join(os.path.dirname(os.path.abspath(__file__)), f"{name}.c")
    subprocess.run(["cc", "-O2", "-o", path, source], check=True)
    return path


def one_run(launch, program, words, data):
    """The milliseconds and megabytes of a process, which launch.c starts."""
    with open(data, "rb") as it:
        done = subprocess.run([launch, program, *words], stdin=it, stdout=subprocess.PIPE, check=True, text=True)
    took, held, _ = map(int, done.stdout.split())
    return took / 1000, held / 1024


def peak(program, calls):
    """The most memory that a process of the first call held, in kilobytes, as the system reports it. launch.c starts it, since
    the system would count the memory of this script for a process that the script starts itself."""
    words, path = calls[0]
    with tempfile.TemporaryDirectory() as folder:
        return one_run(built(folder, "launch"), program, words, path)[1] * 1024


def instructions(program, calls):
    """The instructions of the calls, by valgrind's callgrind."""
    total = 0
    for words, path in calls:
        with open(path, "rb") as data:
            done = subprocess.run(
                ["valgrind", "--tool=callgrind", "--callgrind-out-file=/dev/null", program, *words],
                stdin=data, stdout=subprocess.DEVNULL, stderr=subprocess.PIPE, text=True,
            )
        total += int(re.search(r"Collected : (\d+)", done.stderr)[1])
    return total


def timed(pairs, runs, measure=seconds, enough=ENOUGH):
    """The times of each pair of a program and its calls, the runs taking turns."""
    times, began = [[] for _ in pairs], time.perf_counter()
    for at in range(runs):
        if at >= 2 and time.perf_counter() - began > enough:
            break
        for (program, calls), out in zip(pairs, times):
            out.append(measure(program, calls))
    return times


def milliseconds(value):
    return f"{value * 1000:.1f}" if value < 1 else f"{value * 1000:,.0f}"

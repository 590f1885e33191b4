"""A sample of inputs and answers that both programs agree on, as cases."""
import os
import re

import case_files
import rules

WIDTH = 100  # the most bytes of an input with its answer
PAIR = 60  # the most of half of those that are accepted
COMMANDS = ("affected", "ranges")
SHARES = {"accepted": 0.5, "refused": 0.25, "malformed": 0.25}


def kind_of(answer):
    text, _ = answer
    return "malformed" if b"malformed" in text else "refused" if b"refused" in text else "accepted"


def shape(rest):
    """A text with its numbers, pre-releases and build metadata made alike."""
    rest = re.sub(rb"\+[0-9A-Za-z.-]+", b"+b", rest)
    return re.sub(rb"1(\.1)*", b"1", re.sub(rb"\d{1,19}", b"1", re.sub(rb"-[0-9A-Za-z.-]+", b"-p", rest)))


def malformed_features(lines, at):
    word, space, rest = lines[at - 1].rstrip(b"\r").partition(b" ")
    known = word in (b"patched", b"unaffected", b"version")
    odd = "no space" if not space else "tab" if b"\t" in word else "blank" if not word else "letters" if word.isalpha() else "other"
    found = {("at", min(at, 3)), ("last", at == len(lines)), ("word", word if known else odd)}
    if known:
        found.add(("rest", word == b"version", re.sub(rb"[a-zA-Z]+", b"a", re.sub(rb"\d{1,19}", b"1", rest))))
    return found


def place(version, bound):
    """Where a version is from a bound."""
    if version.key == bound.key:
        return "at, with build" if version.build else "at"
    after = bound.successor()
    if after and version.key == after.key:
        return "next"
    side = "above" if version.key > bound.key else "below"
    return side + (", pre-release" if version.pre and version.numbers == bound.numbers else "")


def verdict_features(data):
    """Where the versions asked about are from the bounds, and what holds there."""
    requirements, versions = rules.said("affected", data)
    found = set()
    for _, comparators in requirements:
        interval = rules.Interval(comparators)
        for version in versions:
            for op, numbers, pre in comparators:
                named = rules.Version(*(n or 0 for n in numbers), pre)
                found.add(("verdict", op, place(version, named), interval.holds(version)))
    return found


def features(command, data, answer):
    """What a case shows: rows are chosen so that each feature is shown early."""
    text, _ = answer
    kind = kind_of(answer)
    lines = data.split(b"\n")
    found = {("line feeds", min(data.count(b"\n"), 4)), ("returns", min(data.count(b"\r"), 2))}
    if kind == "malformed":
        found |= malformed_features(lines, int(text.split(b":")[0].split()[1]))
        return {(kind, *f) for f in found}
    for line in lines:
        word, _, rest = line.rstrip(b"\r").partition(b" ")
        found |= {("word", word)} | {("operator", op) for op in re.findall(rb"[<>]=?|[=~^*xX,]", rest)}
        if word != b"version":
            found.add(("shape", shape(rest)))
        for part in re.findall(rb"-([0-9A-Za-z.-]+)", rest):
            found.add(("pre-release", min(part.count(b"."), 2), part.split(b".")[0].isdigit()))
    if kind == "accepted":
        rows = text.split(b"\n")[:-1]
        found |= {("rows", min(len(rows), 4)), ("two lists", b"unaffected" in data and b"patched" in data)}
        if command == "ranges":
            found |= {("row", shape(row)) for row in rows} | {("no width", *row.split(b" ")[:1]) for row in rows if len(set(row.split(b" "))) == 1}
        else:
            found |= verdict_features(data)
        if not rows or not re.search(rb"(?m)^(patched|unaffected) ", data):
            found = {("no output", b"patched" in data), ("no requirement", b"-" in data)}
    for what, pattern in {
        "limit": rb"18446744073709551615", "blank": rb"\n\n", "no end": rb"[^\n]\Z", "build": rb"\+", "least": rb"-0\b", "spaces": rb"  ",
    }.items():
        if re.search(pattern, data):
            found.add((what,))
    return {(command, kind, *f) for f in found}


def width(data, answer):
    """How many bytes an input and its answer have."""
    return len(data) + len(answer[0])


def chosen(cases, count):
    """The rows: of each command half with an answer, a quarter refused and a quarter malformed; by turns the
    case that shows the most new features for its length."""
    pools = {(command, kind): {} for command in COMMANDS for kind in SHARES}
    for command, data, ours, theirs in cases:
        if ours == theirs and data and width(data, ours) <= WIDTH:
            pools[command, kind_of(ours)][data] = (features(command, data, ours), ours)
    rows = {command: [] for command in COMMANDS}
    shown = set()
    for (command, kind), pool in pools.items():
        wanted = int(count / len(COMMANDS) * SHARES[kind])
        for at in range(min(len(pool), wanted)):
            if kind == "accepted" and at == wanted // 2:
                pool = {data: case for data, case in pool.items() if width(data, case[1]) <= PAIR}
            data = max(pool, key=lambda data: (len(pool[data][0] - shown) / (60 + len(data)), data))
            found, answer = pool.pop(data)
            shown |= found
            rows[command].append((data, answer))
    order = lambda item: (item[1][1], item[1][0].split(b":")[0] if item[1][1] else b"", len(item[0]), item[0])
    return {command: sorted(found, key=order) for command, found in rows.items()}


# What a case shows of each kind of answers.
SENTENCES = {
    ("affected", "accepted"): "writes the same verdict", ("ranges", "accepted"): "writes the same ranges",
    ("affected", "refused"): "refuses the lists too", ("ranges", "refused"): "refuses the lists too",
    ("affected", "malformed"): "calls the same line malformed", ("ranges", "malformed"): "calls the same line malformed",
}


def case(command, number, data, answer):
    """The name and the text of a case of an input that both programs answer alike."""
    kind, (text, status) = kind_of(answer), answer
    name = f"sampled-{command}-{'answer' if kind == 'accepted' else kind}-{number:02}"
    mark, own = case_files.written(data)
    return name, (f"A random input, number {number}: the Rust crate's program {SENTENCES[command, kind]}.\n\n$ {command}\n"
                  f"-- {mark}input --\n{own}-- output --\n{text.decode()}-- status {status} --\n")


def write_cases(rows, folder):
    """Writes a case for each row below a folder, in the folder of its command. Returns how many there are."""
    count = 0
    for command in COMMANDS:
        numbers = dict.fromkeys(SHARES, 0)
        os.makedirs(os.path.join(folder, command), exist_ok=True)
        for data, answer in rows[command]:
            numbers[kind_of(answer)] += 1
            name, text = case(command, numbers[kind_of(answer)], data, answer)
            with open(os.path.join(folder, command, f"{name}.case"), "w", encoding="utf-8") as it:
                it.write(text)
            count += 1
    return count

"""The rules of docs/DEFINITIONS.md, written a second time and plainly, for inputs of `affected` and
`ranges` that the Rust crate's program can't answer."""
import re

LIMIT = 2**64 - 1
NUMBER = r"(0|[1-9][0-9]*)"
PRE_PART = r"(?:0|[1-9][0-9]*|[0-9]*[A-Za-z-][0-9A-Za-z-]*)"
PRE = rf"(?:-({PRE_PART}(?:\.{PRE_PART})*))?"
BUILD = r"(?:\+([0-9A-Za-z-]+(?:\.[0-9A-Za-z-]+)*))?"
VERSION = re.compile(rf"{NUMBER}\.{NUMBER}\.{NUMBER}{PRE}{BUILD}")
COMPARATOR = re.compile(
    rf"(>=|>|<=|<|=|~|\^|) *{NUMBER}"
    rf"(?:\.[*xX](?:\.[*xX])?|\.{NUMBER}\.[*xX]|\.{NUMBER}\.{NUMBER}{PRE}{BUILD}|\.{NUMBER})? *"
)
WORDS = ("patched", "unaffected", "version")


class Malformed(Exception):
    pass


class Refused(Exception):
    """A list that is not accepted. `limit` tells whether a number would have to pass the greatest one."""

    def __init__(self, limit=False):
        self.limit = limit


class Version:
    def __init__(self, major, minor, patch, pre="", build=""):
        self.numbers, self.pre, self.build = (major, minor, patch), pre, build
        parts = [(0, len(p), p) if p.isdigit() else (1, 0, p) for p in pre.split(".")] if pre else []
        self.key = (*self.numbers, not pre, parts)

    def __str__(self):
        text = ".".join(map(str, self.numbers))
        return text + ("-" + self.pre if self.pre else "") + ("+" + self.build if self.build else "")

    def successor(self):
        major, minor, patch = self.numbers
        if self.pre:
            return Version(major, minor, patch, self.pre + ".0")
        return None if patch == LIMIT else Version(major, minor, patch + 1, "0")


def least(*numbers):
    if max(numbers) > LIMIT:
        raise Refused(limit=True)
    return Version(*numbers, "0")


def number(text):
    if len(text) > 20 or int(text) > LIMIT:
        raise Malformed
    return int(text)


def version_of(text):
    match = VERSION.fullmatch(text)
    if not match:
        raise Malformed
    return Version(*map(number, match.groups()[:3]), match[4] or "", match[5] or "")


def comparators_of(text):
    """Each comparator as operator, numbers (None where missing) and pre-release."""
    if re.fullmatch(r" *[*xX] *", text):
        return []
    texts = text.lstrip(" ").split(",")
    if len(texts) > 32:
        raise Malformed
    out = []
    for i, part in enumerate(texts):
        match = COMPARATOR.fullmatch(part.lstrip(" ") if i else part)
        if not match:
            raise Malformed
        op, major, minor_star, minor, patch, pre, _, minor_alone = match.groups()
        numbers = [None if n is None else number(n) for n in (major, minor_star or minor or minor_alone, patch)]
        star = re.search(r"\.[*xX]", re.split("[-+]", part)[0])
        out.append((op or ("wildcard" if star else "^"), numbers, pre or ""))
    return out


class Interval:
    """Each side is None, or a version and whether the version itself is in."""

    def __init__(self, comparators):
        self.start = self.end = None
        self.is_patched = False
        if len(comparators) > 2:
            raise Refused
        for op, (major, minor, patch), pre in comparators:
            named = Version(major, minor or 0, patch or 0, pre)
            if op in (">", ">="):
                if self.start:
                    raise Refused
                self.start = (named, op == ">=")
            elif op in ("<", "<="):
                if self.end:
                    raise Refused
                self.end = (named, op == "<=")
            elif op == "wildcard" or len(comparators) > 1:
                raise Refused
            else:
                self.start = (named, True)
                self.end = (named, True) if op == "=" else (self.above(op, major, minor, patch), False)
        if self.start and not self.start[1] and not self.start[0].successor():
            raise Refused(limit=True)
        if self.end and self.end[1] and not self.end[0].successor():
            raise Refused(limit=True)
        if not reaches(self.start, self.end):
            raise Refused

    @staticmethod
    def above(op, major, minor, patch):
        if minor is None:
            return least(major + 1, 0, 0)
        if op == "~":
            return least(major, minor + 1, 0)
        if major:
            return least(major + 1, 0, 0)
        if minor or patch is None:
            return least(0, minor + 1, 0)
        return least(0, 0, patch + 1)

    def holds(self, version):
        after = not self.start or self.start[0].key < version.key or (self.start[1] and self.start[0].key == version.key)
        before = not self.end or version.key < self.end[0].key or (self.end[1] and self.end[0].key == version.key)
        return after and before

    def order(self):
        return (False,) if not self.start else (True, self.start[0].key, not self.start[1])

    def last(self):
        return (True,) if not self.end else (False, self.end[0].key, self.end[1])

    def overlaps(self, other):
        return reaches(self.start, other.end) and reaches(other.start, self.end)


def reaches(start, end):
    if not start or not end:
        return True
    return start[0].key < end[0].key or (start[0].key == end[0].key and start[1] and end[1])


def merged(intervals):
    """The chains of overlapping intervals, each as one interval with the least start and the greatest end."""
    chains = []
    for interval in intervals:
        joined = [c for c in chains if any(interval.overlaps(other) for other in c)]
        chains = [c for c in chains if c not in joined] + [[interval, *(other for c in joined for other in c)]]
    out = []
    for chain in chains:
        whole = object.__new__(Interval)
        whole.start, whole.end = min(chain, key=Interval.order).start, max(chain, key=Interval.last).end
        out.append(whole)
    return out


def ranges(intervals):
    introduced, out = "-", []
    for i in sorted(merged(intervals), key=Interval.order):
        if i.start:
            out.append((introduced, str(i.start[0] if i.start[1] else i.start[0].successor())))
        if not i.end:
            return out
        introduced = str(i.end[0].successor() if i.end[1] else i.end[0])
    return [*out, (introduced, "-")]


def said(command, data):
    """The requirements, each with whether it is patched, and the versions; or the number of the first malformed line."""
    requirements, versions = [], []
    for at, line in enumerate(data.split(b"\n")):
        line = line[:-1] if line.endswith(b"\r") else line
        if not line:
            continue
        try:
            word, space, rest = line.decode().partition(" ")
            if not space or word not in WORDS or (command == "ranges" and word == "version"):
                raise Malformed
            if word == "version":
                versions.append(version_of(rest))
            else:
                requirements.append((word == "patched", comparators_of(rest)))
        except (Malformed, UnicodeDecodeError):
            return at + 1
    return requirements, versions


def answer(command, data):
    """What the rules answer: the text and the status; and what is odd in the lists: `limit`, `merged` or `equal starts`."""
    lines = said(command, data)
    if isinstance(lines, int):
        return (f"line {lines}: malformed\n".encode(), 2), None
    requirements, versions = lines
    intervals, faults = [], []
    for is_patched, requirement in requirements:
        try:
            intervals.append(Interval(requirement))
            intervals[-1].is_patched = is_patched
        except Refused as fault:
            faults.append(fault)
    meeting = [(a, b) for i, a in enumerate(intervals) for b in intervals[i + 1:] if a.overlaps(b)]
    if faults or not all(a.is_patched and b.is_patched for a, b in meeting):
        return (b"refused: bad parameter\n", 2), "limit" if any(f.limit for f in faults) else None
    starts = [i.start[0].key for i in intervals if i.start]
    odd = "merged" if meeting else "equal starts" if any(starts.count(s) > 1 for s in starts) else None
    if command == "ranges":
        text = "".join(f"{a} {b}\n" for a, b in ranges(intervals))
    else:
        text = "".join(f"{v} {'not ' if any(i.holds(v) for i in intervals) else ''}affected\n" for v in versions)
    return (text.encode(), 0), odd

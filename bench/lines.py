"""Random inputs of `affected` and `ranges` that try to find a difference: bounds that touch or are equal,
numbers at 2^64-1, chains of pre-releases, build metadata, wildcards, malformed lines, blank lines,
carriage returns, bytes that are not UTF-8."""
from rules import LIMIT, Version

PRES = [
    "0", "0.0", "0.0.0", "1", "2", "9", "10", "00a", "a", "a.0", "a.0.0", "a.0.1", "a.1", "a.a", "a-", "a0", "aa",
    "A", "Z.9", "-", "--", "-0", "-.0", "alpha", "alpha.1", "alpha.beta", "beta", "beta.2", "beta.11", "rc.1", "x",
    "18446744073709551615", "18446744073709551616", "99999999999999999999999",
]
BUILDS = ["b", "0", "00", "001", "b.1", "-", "a.b.c", "18446744073709551616", "x"]
ODD_REQUIREMENTS = [
    "", " ", "*", " *", "* ", "x", "X", "*.1", "**", "xx", "*, >=1", ">=1, *", "1.*", "1.x", "1.X.*", "1.2.*", "=1.*",
    "=1.2.x", ">=1.*", ">1.*.*", "<1.x", "<=1.2.*", "^1.*", "~1.x", "^*", ">=*", "1.*.3", "1.*-a", "*-a", "1.2.*-a",
    "1.2.*+b", "1,", ",1", "1,,2", "1 2", ">=1 <2", ">=1,<2", " >= 1 , < 2 ", ">=1,  <2", ">=1 ,<2", ">=  1.2.3  ",
    "==1", "=>1", "><1", ">==1", "<>1", "> =1", "!=1", "~>1", "~=1", "^^1", "v1", "V1.2.3", "1.", "1..2", ".1", "1.2.",
    "1.2.3.", "1.2.3.4", "1.2.3-", "1.2.3+", "1.2.3-+b", "1.2.3-a+", "1.2.3-a..b", "1.2.3-.a", "1.2.3-a.", "1.2.3-01",
    "1.2.3-0a", "1.2.3-a_b", "1.2.3-é", "1.2.3+a+b", "1-a", "1.2-a", "1+b", "01", "1.02", "1.2.03", "00", "-1", "+1",
    "1e5", "0x1", "１", "1\t", "\t1", "\u00a01", "\ufeff1", "\x001", "1\x00", "latest", ">=1, >=2", "<1, <=2", "=1, =1",
    "=1, <2", "^1, <2", "~1, >0", ">=1, <2, <3", "<1, >2", "<1, >=1", "<=1, >=1", ">1, <1", ">=1, <=1", ">1.0.0-a, <1",
    "18446744073709551615", "18446744073709551616", ">=18446744073709551616", "99999999999999999999",
    ">=1.18446744073709551616", ", ".join([">0"] * 32), ", ".join([">0"] * 33), ",".join(["<1"] * 3),
]
ODD_VERSIONS = [
    "", " ", "1", "1.2", "1.2.3.4", "1.2.3 ", " 1.2.3", "01.2.3", "1.02.3", "1.2.03", "v1.2.3", "1.2.3-", "1.2.3+",
    "1.2.3-01", "1.2.3-0a", "1.2.3-a..b", "1.2.3-a.", "1.2.3+a.", "1.2.3+.a", "1.2.3+a+b", "1.2.3-a+b-c", "1.2.3+b-c",
    "1.2.3-+b", "1.2.x", "*", "1.2.-3", "-1.2.3", "1.2.3-é", "１.2.3", "1.2.3\t", "1.2.3\x00", "=1.2.3",
    "18446744073709551616.0.0", "0.18446744073709551616.0", "0.0.18446744073709551616",
    "18446744073709551615.18446744073709551615.18446744073709551615", "00.0.0", "0.0.0-00", "0.0.0-0", "1.2.3+00",
]
ODD_LINES = [
    b"", b"", b"\r", b"\r\r", b" ", b" \r", b"\t", b"patched", b"patched ", b"patched  ", b"unaffected", b"version",
    b"version ", b"version\t1.0.0", b"patched\t>=1", b"Patched >=1", b"PATCHED >=1", b"patched>=1", b"patch >=1",
    b"patchedd >=1", b" patched >=1", b" version 1.0.0", b"versions 1.0.0", b"version  1.0.0", b"version 1.0.0 ",
    b"version 1.0.0\r", b"version 1.0.0\r\r", b"version\r 1.0.0", b"\rversion 1.0.0", b"patched >=1\r", b"patched \r",
    b"# note", b"\xff", b"version 1.0.0\xff", b"\xffversion 1.0.0", b"patched \xff", b"version 1.0.0-\xc3\xa9",
    b"version 1.0.0-\xc0\x80", b"\xed\xa0\x80", b"\xf4\x90\x80\x80", b"\xe2\x82", b"\xef\xbb\xbfversion 1.0.0",
    b"\x00", b"version\x00 1.0.0", b"version 1.0.0\x00", b"version 1.0.0\x0b", b"version 1.0.0\xe2\x80\xa8",
    b"affected 1.0.0", b"unaffected version 1.0.0", b"patched patched 1", b"%%",
]


def number(r, limit):
    if r.random() < limit:
        return r.choice([LIMIT, LIMIT, LIMIT - 1])
    return r.choice([0, 0, 0, 1, 1, 2, 2, 3, 9, 10, 11])


def pre(r, chance):
    if r.random() >= chance:
        return ""
    text = r.choice(PRES)
    while r.random() < 0.3:
        text += "." + r.choice(["0", "0", "1", "a", "-", "9", "10"])
    return text


def points(r, count):
    """Versions, in rising order, many of them close to one another."""
    limit = r.choice([0, 0, 0.05, 0.4])
    chance = r.choice([0, 0.2, 0.7, 1])
    base = [number(r, limit) for _ in range(3)]
    out = []
    for _ in range(count):
        near = [n if r.random() < 0.7 else number(r, limit) for n in base]
        v = Version(*near, pre(r, chance))
        if out and r.random() < 0.15:
            v = r.choice(out)
        if out and r.random() < 0.15:
            v = r.choice(out).successor() or v
        out.append(v)
    return sorted(out, key=lambda v: v.key)


def shortened(r, v):
    """A version's text, without numbers of zero at its end perhaps, which say the same in a requirement."""
    numbers = list(v.numbers)
    while len(numbers) > 1 and numbers[-1] == 0 and not v.pre and r.random() < 0.5:
        numbers.pop()
    text = ".".join(map(str, numbers))
    if len(numbers) == 3:
        text += "-" + v.pre if v.pre else ""
        text += "+" + r.choice(BUILDS) if r.random() < 0.08 else ""
    return text


def comparator(r, op, v):
    spaces = " " * r.choice([0, 0, 0, 1, 1, 2])
    return op + spaces + shortened(r, v)


def between(r, low, high):
    """A requirement whose interval is about from one point to another; None means unbounded."""
    if low is None and high is None:
        return "*"
    if low is None:
        return comparator(r, r.choice(["<", "<="]), high)
    if high is None:
        return comparator(r, r.choice([">", ">="]), low)
    kind = r.random()
    if kind < 0.12:
        return comparator(r, "=", low)
    if kind < 0.3:
        return comparator(r, r.choice(["^", "~", "", ""]), low)
    pair = [comparator(r, r.choice([">", ">="]), low), comparator(r, r.choice(["<", "<="]), high)]
    r.shuffle(pair) if r.random() < 0.2 else None
    return r.choice([", ", ", ", ",", " , "]).join(pair)


def requirements(r):
    count = r.choice([0, 1, 1, 1, 2, 2, 2, 3, 3, 4, 6, 9])
    if not count:
        return [], points(r, 2)
    sharing = r.random() < 0.5
    bounds = points(r, count + 1 if sharing else 2 * count)
    out = []
    for i in range(count):
        low, high = (bounds[i], bounds[i + 1]) if sharing else (bounds[2 * i], bounds[2 * i + 1])
        low = None if i == 0 and r.random() < 0.5 else low
        high = None if i == count - 1 and r.random() < 0.5 else high
        out.append(between(r, low, high))
    if r.random() < 0.06:
        out[r.randrange(count)] = r.choice(ODD_REQUIREMENTS)
    if r.random() < 0.08:
        out.append(between(r, *points(r, 2)))
    r.shuffle(out)
    return out, bounds


def asked(r, bounds):
    v = r.choice(bounds)
    kind = r.random()
    if kind < 0.15:
        v = v.successor() or v
    elif kind < 0.3:
        v = Version(*v.numbers, r.choice(["", "0", v.pre + ".0" if v.pre else "a", pre(r, 1)]))
    elif kind < 0.45:
        v = points(r, 1)[0]
    text = str(v) + ("+" + r.choice(BUILDS) if r.random() < 0.15 else "")
    return r.choice(ODD_VERSIONS) if r.random() < 0.01 else text


def mutated(r, data):
    data = bytearray(data)
    for _ in range(r.choice([1, 1, 2, 4])):
        at = r.randrange(len(data) + 1)
        kind = r.random()
        if kind < 0.3 and at < len(data):
            del data[at]
        elif kind < 0.5 and at < len(data):
            data[at] = r.choice(b" .,-+*xX=<>~^019\r\n\x00\x80\xff")
        elif kind < 0.85:
            data[at:at] = bytes([r.choice(b" .,-+*xX=<>~^019\r\n\t\x00\x80\xc3\xff")])
        else:
            data[at:at] = data[at:at + r.randrange(1, 12)]
    return bytes(data)


def random_input(r, command):
    """The bytes of one input."""
    reqs, bounds = requirements(r)
    lines = [f"{r.choice(['patched', 'patched', 'unaffected'])} {q}".encode() for q in reqs]
    if command == "affected":
        lines += [f"version {asked(r, bounds)}".encode() for _ in range(r.choice([0, 1, 1, 2, 3, 5, 8]))]
        r.shuffle(lines) if r.random() < 0.3 else None
    kind = r.random()
    if kind < 0.09:
        lines.insert(r.randrange(len(lines) + 1), r.choice(ODD_LINES))
    elif kind < 0.15:
        word = r.choice(["patched", "unaffected"] + ["version"] * (command == "affected"))
        odd = r.choice(ODD_VERSIONS if word == "version" else ODD_REQUIREMENTS)
        lines.insert(r.randrange(len(lines) + 1), f"{word} {odd}".encode())
    elif kind < 0.17 and command == "ranges":
        lines.insert(r.randrange(len(lines) + 1), b"version 1.0.0")
    for _ in range(r.choice([0, 0, 0, 0, 0, 1, 3])):
        lines.insert(r.randrange(len(lines) + 1), r.choice([b"", b"", b"\r"]))
    end = b"\r\n" if r.random() < 0.08 else b"\n"
    data = end.join(lines) + (end if r.random() < 0.85 else b"")
    return mutated(r, data) if r.random() < 0.07 else data

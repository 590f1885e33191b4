"""Inputs that try to take the program down: the shipped examples, the texts of the tests and random files, taken apart
and put together again."""
import json
import os
import re

import advisories
import case_files
import databases
import grammars
import lines

TOP = os.path.join(os.path.dirname(os.path.abspath(__file__)), "..")
NUMBERS = [
    "0", "1", "9", "00", "255", "256", "65536", "4294967295", "4294967296", "9223372036854775807", "9223372036854775808",
    "18446744073709551614", "18446744073709551615", "18446744073709551616", "340282366920938463463374607431768211456",
    "9" * 40, "-1", "+1", "1e9", "1e400", "0x10", "1_000", "inf", "nan", "2^64",
]
SPACES = [c.encode() for c in grammars.WHITE] + [b"\xe2\x80\x8b", b"\xef\xbb\xbf", b"\x1c", b"\x00"]
ENDS = [b"\n", b"\r", b"\r\n", b"\n\r", b"\n\n", b"\x0b", b"\x0c", b"\xc2\x85", b"\xe2\x80\xa8", b"\xe2\x80\xa9", b""]
NESTS = [(b"[", b"]"), (b"{a=", b"}"), (b'{"a":', b"}"), (b"(", b")"), (b"<", b">"), (b"[[", b"]]"), (b"a.", b""), (b'"', b'"'), (b"'''", b"'''")]
BYTES = b"\x00\t\n\r !\"#$%&'()*+,-./09:;<=>?@AZ[\\]^_`az{|}~\x7f\x80\xc2\xe2\xf0\xff"
ESCAPES = {"n": "\n", "r": "\r", "t": "\t", "0": "\0", "\\": "\\", '"': '"', "'": "'"}


def unescaped(literal):
    literal = re.sub(r"\\\n\s*", "", literal)
    literal = re.sub(r"\\u\{([0-9a-fA-F]+)\}", lambda m: chr(int(m[1], 16)), literal)
    literal = re.sub(r"\\x([0-9a-fA-F]{2})", lambda m: chr(int(m[1], 16)), literal)
    return re.sub(r"\\(.)", lambda m: ESCAPES.get(m[1], m[1]), literal)


TEST_CRATES = ("rustsec_fixtures", "rustsec_vectors", "rustsec_vectors_parts")


def texts_of_tests():
    """Each text that a test has written out, and each file and input of a case."""
    found = set()
    for crate in TEST_CRATES:
        folder = os.path.join(TOP, "crates", crate, "src")
        for path in sorted(os.path.join(top, name) for top, _, names in os.walk(folder) for name in names):
            with open(path, encoding="utf-8") as f:
                source = f.read()
            for raw, plain in re.findall(r'r#"(.*?)"#|"((?:[^"\\]|\\.)*)"', source, re.S):
                found.add(raw or unescaped(plain))
    for case in case_files.read_all(case_files.DATA)[0]:
        for contents in [case.input, *(contents for _, contents in case.files if contents)]:
            found.add(contents.decode(errors="ignore"))
    return sorted(found)


def examples():
    """The shipped examples."""
    folder, found = os.path.join(TOP, "examples"), []
    for top, _, names in sorted(os.walk(folder)):
        for name in sorted(names):
            with open(os.path.join(top, name), encoding="utf-8") as f:
                found.append(f.read())
    return found


TEXTS = [*texts_of_tests(), *examples()]
SHORT = [t for t in TEXTS if len(t) < 100]
ADVISORIES = [t for t in TEXTS if t.startswith("```toml")]
LOCKFILES = [t for t in TEXTS if "[[package]]" in t]
POLICIES = [t for t in TEXTS if "[advisories]" in t and "```" not in t]
KNOWN = {
    "address": advisories.ADDRESSES, "arch": advisories.ARCHES, "category": advisories.KINDS, "collection": advisories.COLLECTIONS,
    "cvss": advisories.VECTORS, "date": advisories.DATES, "id": advisories.IDS, "identifier": (["base", "<A,B>"], ["0a"]),
    "informational": (["notice", "unsound"], []), "interval": (lines.ODD_REQUIREMENTS, advisories.REQUIREMENTS[0]),
    "keyword": (["how"], []), "license": (["CC0-1.0"], []), "name": (["base"], [""]), "os": advisories.SYSTEMS,
    "path": advisories.PATHS, "source": advisories.SOURCES, "warning": (["notice", "yanked"], []),
}
# How often an input is a large one, and the most that it has: the sizes of "Large inputs" in docs/TESTING.md.
LARGE, REQUIREMENTS, DESCRIPTION, PACKAGES, FUNCTIONS, FILES, LONG = 0.001, 300, 1 << 20, 10_000, 10_000, 10_000, 1 << 16
RANGES, MEMBERS, LINKS = 300, 1000, 9000
# How long texts begin, and what they repeat after that.
LONG_TEXTS = {
    "address": [("https://example.com/", "a"), ("https://example.com/", "%20"), ("", "a")], "arch": [("x86", "6")],
    "category": [("x", "a"), ("memory-corruption", "n")], "collection": [("crates", "s")],
    "cvss": [("CVSS:4.0/", "a"), ("CVSS:3.1/", "AV:N/"), ("CVSS:3.1/AV:", "N")], "date": [("2001-02-03", "0")],
    "id": [("X-", "a"), ("RUSTSEC-2001-", "0"), ("RUSTSEC-2001-", "9"), ("CVE-2001-", "1-"), ("GHSA-", "é")],
    "identifier": [("a", "a"), ("<", "A,"), ("0", "a")], "informational": [("x", "a"), ("notice", "e")],
    "interval": [(">=1.2.3-", "a"), (">=1.2.3-a", ".a"), ("1.2.", "9"), (">=1", " ")], "keyword": [("x", "a")],
    "license": [("CC0-1.0", " ")], "name": [("base-", "a")], "os": [("windows", "s")],
    "path": [("base::", "a"), ("base", "::a"), ("base::", "0"), ("base::a", ":")],
    "source": [("git+https://example.com/", "a"), ("registry+https://example.com/", "a"), ("git+https://example.com/a#", "0"), ("git", "a")],
    "warning": [("notice", "e")],
}
# Each reader, and how often it is asked.
READERS = {reader: 3 for reader in KNOWN} | {"advisory": 6, "lint": 6, "parts": 5, "lockfile": 8, "osv": 14}


def places_of(tree):
    """Each place below a tree: what holds it, and its key or number there."""
    keys = list(tree) if isinstance(tree, dict) else range(len(tree)) if isinstance(tree, list) else []
    return [(tree, key) for key in keys] + [place for key in keys for place in places_of(tree[key])]


def change_tree(r, tree):
    """Another value at one place, none, one more, or two values in one another's place."""
    places = places_of(tree)
    (held, key), (other, at) = r.choice(places), r.choice(places)
    kind = r.random()
    if kind < 0.5:
        held[key] = r.choice([None, True, 0, 1.5, 2**64, "", [], {}, [None], {"": ""}, "\0", r.choice(SHORT), r.choice(NUMBERS)])
    elif kind < 0.7:
        del held[key]
    elif kind < 0.8 and isinstance(held, dict):
        held[r.choice(["", "x", "fixed", "Introduced", key + " "])] = held[key]
    else:
        held[key], other[at] = json.loads(json.dumps([other[at], held[key]]))


def osv_document(r):
    """A document of the OSV schema, mostly one that is read."""
    one = lambda values: r.choice(values[0] if r.random() < 0.97 else values[0] + values[1])
    some = lambda values, most=2: [one(values) for _ in range(r.randint(0, most))]
    version = lambda: r.choice(["0", "1", "1.2", "1.2.3", "0.0.0-0", "1.2.3-a+b", "1.2.3"])
    keys = ["introduced", "fixed", "last_affected"]
    links = ["https://rustsec.org/advisories/RUSTSEC-2021-0001.html", "https://rustsec.org/advisories/CVE-2021-1"]
    document = {
        "id": one(advisories.IDS), "modified": "m", "published": "p", "summary": "T", "details": "D",
        "aliases": some(advisories.IDS), "related": some(advisories.IDS),
        "affected": [{
            "package": {"ecosystem": "crates.io", "name": r.choice(["base", "other"]), "purl": r.choice([None, "pkg:cargo/base"])},
            "ecosystem_specific": r.choice([None, {"affected_functions": None, "affects": {
                "arch": some(advisories.ARCHES), "os": some(advisories.SYSTEMS), "functions": some(advisories.PATHS)}}]),
            "database_specific": {"categories": some(advisories.KINDS), "cvss": r.choice([None, one(advisories.VECTORS)]), "informational": None},
            "ranges": [{"type": "SEMVER", "events": [{r.choice(keys): version()} for _ in range(r.randint(0, 3))]}],
            "versions": r.choice([[], None, ["1"]]),
        } for _ in range(r.randint(0, 2))],
        "references": [{"type": r.choice(grammars.REFERENCES), "url": r.choice(links)} for _ in range(r.randint(0, 2))],
        "severity": r.choice([[], [{"type": "CVSS_V3", "score": advisories.VECTORS[0][0]}], [{"type": "CVSS_V4", "score": "CVSS:4.0/x"}]]),
        "database_specific": {"license": r.choice([None, "CC0-1.0"])},
    }
    for _ in range(r.choice([0, 0, 1, 1, 2])):
        change_tree(r, document)
    return json.dumps(document, ensure_ascii=False, indent=r.choice([None, None, 1]))


def changed_byte(r, data, other):
    at = r.randrange(len(data) + 1)
    return data[:at] + bytes([r.choice(BYTES)]) + data[at + r.randint(0, 1):]


def cut(r, data, other):
    a, b = sorted((r.randrange(len(data) + 1), r.randrange(len(data) + 1)))
    return r.choice([data[:a], data[b:], data[:a] + data[b:], data[a:b]])


def doubled(r, data, other):
    a, b = sorted((r.randrange(len(data) + 1), r.randrange(len(data) + 1)))
    return data[:b] + data[a:b] * r.choice([1, 1, 2, 9]) + data[b:]


def joined(r, data, other):
    return data[:r.randrange(len(data) + 1)] + other[r.randrange(len(other) + 1):]


def exchanged(r, data, other):
    """Two lines, or two of the words, keys or values, in one another's place."""
    pieces = re.split(r.choice([rb"(\n)", rb'("[^"\n]*")', rb"([A-Za-z0-9_.-]+)", rb"([/:.,\-+])"]), data)
    a, b = r.randrange(len(pieces)), r.randrange(len(pieces))
    pieces[a], pieces[b] = pieces[b], pieces[a]
    return b"".join(pieces)


def numbered(r, data, other):
    found = list(re.finditer(rb"[0-9]+", data))
    if not found:
        return data + r.choice(NUMBERS).encode()
    at = r.choice(found)
    return data[:at.start()] + r.choice(NUMBERS).encode() + data[at.end():]


def nested(r, data, other):
    opening, closing = r.choice(NESTS)
    times = r.choice([1, 2, 8, 64, 127, 128, 129, 1000])
    a, b = sorted((r.randrange(len(data) + 1), r.randrange(len(data) + 1)))
    return data[:a] + opening * times + data[a:b] + closing * r.choice([0, times, times, times - 1]) + data[b:]


def spaced(r, data, other):
    at = r.choice([0, len(data), r.randrange(len(data) + 1)])
    return data[:at] + r.choice(SPACES) * r.choice([1, 1, 2, 30]) + data[at:]


def ended(r, data, other):
    return data.replace(b"\n", r.choice(ENDS)) if b"\n" in data else data + r.choice(ENDS)


def long(r, data, other):
    """A piece as often as is needed so that time or memory beyond a multiple of the size would show."""
    a = r.randrange(len(data) + 1)
    piece = data[a:a + r.choice([1, 2, 10, 50])] or b"a"
    return data[:a] + piece * (r.choice([100, 1000, 1000, 20_000]) // len(piece)) + data[a:]


CHANGES = [changed_byte] * 4 + [cut] * 4 + [doubled] * 2 + [joined, exchanged, exchanged, exchanged, numbered, numbered, nested, spaced, spaced, ended]


def changed(r, data, other):
    """An input with some changes, now and then with none."""
    for _ in range(r.choice([0, 1, 1, 1, 2, 3])):
        data = r.choice(CHANGES)(r, data, other)
    return long(r, data, other) if r.random() < 0.002 else data


def size(r, most):
    """A size up to a limit. Each power of two is as frequent as the next."""
    return int(most ** r.random())


def disjoint(r):
    """Requirements that don't overlap: unaffected ones of one version each, and patched ones."""
    unaffected = [f"=0.0.{i}" for i in range(1, size(r, REQUIREMENTS) + 1)]
    patched = [f">={i}.0.0, <{i}.5.0" for i in range(1, size(r, REQUIREMENTS) + 1)]
    return unaffected, patched


def long_text(r, reader):
    """A long text that a reader may take."""
    front, filler = r.choice(LONG_TEXTS[reader])
    return front + filler * size(r, LONG)


def large_advisory(r):
    """An advisory with many requirements, a long description or many functions, or with a long ID, package, address or path
    of a function."""
    kind = r.choice(["requirements", "description", "functions", "texts"])
    texts = {reader: long_text(r, reader) for reader in ("id", "name", "path", "address")} if kind == "texts" else {}
    id_, name, path, url = (json.dumps(texts.get(*given), ensure_ascii=False) for given in (
        ("id", "RUSTSEC-2021-0001"), ("name", "base"), ("path", "base::f"), ("address", "https://example.com/")))
    unaffected, patched = disjoint(r) if kind == "requirements" else ([], [">= 1.2.3"])
    words = ["chance ", "é", "``", "\n", "# T\n"]
    description = r.choice(words) * (size(r, DESCRIPTION) // 7) if kind == "description" else "D"
    functions = "".join(f'"base::f{i}" = ["< 1.2.3"]\n' for i in range(size(r, FUNCTIONS))) if kind == "functions" else ""
    functions += f'{path} = ["< 1.2.3"]\n' if texts else ""
    return (
        f'{advisories.FENCE}toml\n[advisory]\nid = {id_}\npackage = {name}\ndate = "2021-02-03"\nurl = {url}\n'
        f"[versions]\npatched = {json.dumps(patched)}\nunaffected = {json.dumps(unaffected)}\n"
        f"[affected.functions]\n{functions}{advisories.FENCE}\n\n# T\n\n{description}\n"
    )


def large_lines(r, command):
    """An input of `affected` or `ranges` with many requirements."""
    unaffected, patched = disjoint(r)
    found = [f"unaffected {req}" for req in unaffected] + [f"patched {req}" for req in patched]
    if command == "affected":
        found += [f"version {r.randrange(REQUIREMENTS)}.{r.randrange(9)}.0" for _ in range(size(r, REQUIREMENTS))]
    r.shuffle(found)
    return "\n".join(found).encode() + b"\n"


def large_lockfile(r):
    """A lockfile with many packages, or with one whose name, version and source are long."""
    if r.random() < 0.5:
        return databases.large_lockfile(r, size(r, PACKAGES)).decode()
    return databases.package(long_text(r, "name"), "1.2.3-" + "a" * size(r, LONG), long_text(r, "source"))


def large_document(r):
    """A document of the OSV schema with many ranges, many packages or many links."""
    kind = r.choice(["ranges", "members", "links"])
    count = {"ranges": 1, "members": 1, "links": 0} | {kind: size(r, {"ranges": RANGES, "members": MEMBERS, "links": LINKS}[kind])}
    events = [[{"introduced": f"{n}.0.0"}, {r.choice(["fixed", "last_affected"]): f"{n}.5.0"}] for n in range(count["ranges"])]
    r.shuffle(events)
    link = "https://rustsec.org/advisories/RUSTSEC-2001-{}" + r.choice(["", ".html"])
    return json.dumps({
        "id": "RUSTSEC-2001-1000", "modified": "m", "published": "p", "summary": "T", "details": "D",
        "affected": [{
            "package": {"ecosystem": "crates.io", "name": f"package-{n}"}, "database_specific": {},
            "ranges": [{"type": "SEMVER", "events": each} for each in events],
        } for n in range(count["members"])],
        "references": [{"type": "WEB", "url": link.format(n)} for n in range(1000, 1000 + count["links"])],
    })


def text_for(r, reader):
    """A text that a reader may take."""
    if r.random() < LARGE and reader in LONG_TEXTS:
        return long_text(r, reader)
    if r.random() < LARGE and reader in ("advisory", "lint", "parts"):
        return large_advisory(r)
    if r.random() < LARGE and reader == "lockfile":
        return large_lockfile(r)
    if r.random() < LARGE and reader == "osv":
        return large_document(r)
    kind = r.random()
    if reader in KNOWN:
        return r.choice(SHORT) if kind < 0.3 else r.choice(r.choice([v for v in KNOWN[reader] if v]))
    if reader == "osv":
        return osv_document(r)
    if reader == "lockfile":
        return r.choice(LOCKFILES) if kind < 0.3 else databases.random_lockfile(r).decode()
    return r.choice(ADVISORIES) if kind < 0.4 else advisories.random_file(r)[1].decode(errors="replace")


def reader_input(r):
    """A reader and its text."""
    reader = r.choices(list(READERS), READERS.values())[0]
    data = text_for(r, reader).encode()
    if reader != "osv" or r.random() < 0.3:
        data = changed(r, data, text_for(r, reader).encode())
    return reader, data.decode(errors="replace")


def small_advisory(identifier, package):
    """The text of an advisory with the least keys."""
    keys = f'id = "{identifier}"\npackage = "{package}"\ndate = "2019-01-01"\n'
    return f"```toml\n[advisory]\n{keys}\n[versions]\npatched = [\">= 1.0.0\"]\n```\n\n# Title\n\nText\n"


def file_input(r):
    """The bytes of an advisory's file."""
    return changed(r, *(text_for(r, "advisory").encode() for _ in range(2)))


def lockfile_input(r):
    """The bytes of a lockfile."""
    return changed(r, *(text_for(r, "lockfile").encode() for _ in range(2)))


def lines_input(r, command):
    """The bytes of an input of `affected` or `ranges`."""
    if r.random() < LARGE:
        return changed(r, large_lines(r, command), lines.random_input(r, command))
    return changed(r, lines.random_input(r, command), lines.random_input(r, command))

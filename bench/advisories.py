"""Advisory files for `lint`: usual ones to measure with, and random ones that try to find a difference."""
import json
import random

FENCE = "`" * 3
CATEGORIES = [
    "code-execution", "crypto-failure", "denial-of-service", "file-disclosure", "format-injection", "malicious",
    "memory-corruption", "memory-exposure", "privilege-escalation", "thread-safety",
]
WORDS = "the a crate memory reads past buffer when given untrusted input of type and then panics".split()


def words(r, n):
    return " ".join(r.choice(WORDS) for _ in range(n))


def usual_file(r, number, packages=None):
    """The name and text of an advisory as the database has them, about 2 kB: of one of 500 packages, or of as many in turn as are given."""
    year, name = 2016 + number % 10, f"crate-{number % packages if packages else r.randrange(500)}"
    major, minor, patch = r.randint(1, 3), r.randint(1, 9), r.randint(0, 9)
    text = f'''{FENCE}toml
[advisory]
id = "RUSTSEC-{year}-{number:04}"
package = "{name}"
date = "{year}-0{r.randint(1, 9)}-1{r.randint(0, 9)}"
url = "https://github.com/example/{name}/issues/{r.randint(1, 999)}"
categories = {json.dumps(r.sample(CATEGORIES, 2))}
keywords = ["memory-safety", "panic"]
aliases = ["CVE-{year}-{r.randint(1000, 99999)}", "GHSA-aaaa-bbbb-{r.randint(1000, 9999)}"]
cvss = "CVSS:3.1/AV:{r.choice("NLAP")}/AC:{r.choice("LH")}/PR:N/UI:N/S:{r.choice("UC")}/C:H/I:{r.choice("NLH")}/A:H"
references = ["https://example.com/post/{r.randint(1, 99)}", "https://github.com/advisories/GHSA-aaaa-bbbb-cccc"]

[versions]
patched = ["^{major}.{minor}.{patch}", ">= {major + 1}.1.0"]
unaffected = ["< {major}.0.0"]

[affected]
arch = ["x86", "x86_64"]
os = ["windows", "linux"]
functions = {{ "{name.replace("-", "_")}::Type::call" = ["< {major}.{minor}.{patch}"] }}
{FENCE}

# {words(r, 6)}

'''
    return f"RUSTSEC-{year}-{number:04}.md", (text + "\n\n".join(words(r, 60) for _ in range(4)) + "\n").encode()


def large_file(r, size):
    """The name and text of an advisory with many functions, keywords and lines."""
    functions = ",\n".join(f'"base::Type{i}::call" = ["< {r.randint(1, 9)}.{i}.0"]' for i in range(size))
    lines = "\n".join(words(r, 12) for _ in range(size))
    text = f'''{FENCE}toml
[advisory]
id = "RUSTSEC-2021-0001"
package = "base"
date = "2021-02-03"
keywords = [
{"".join(f'    "word-{i}",' + chr(10) for i in range(size))}]

[versions]
patched = [">= 9.9.9"]

[affected.functions]
{functions.replace("," + chr(10), chr(10))}
{FENCE}

# {words(r, 6)}

{lines}
'''
    return "RUSTSEC-2021-0001.md", text.encode()


# Values that the reader takes, with or without a fault, and values that it refuses.
IDS = (
    ["RUSTSEC-2021-0001", "RUSTSEC-2021-0001", "RUSTSEC-2001-2101", "RUSTSEC-0000-0000", "RUSTSEC-+2021-1", "CVE-2021-1",
     "TALOS-2021-1", "TALOS-2017-0468", "GHSA-4mmc-49vf-jmcp", "GHSA-", "LULZSEC-2001-2101", "rustsec-2021-0001", "", " ",
     'a"b', "a'\"b", "a\\b"],
    ["RUSTSEC-2021", "RUSTSEC-2021-x", "RUSTSEC-1999-0001", "RUSTSEC-2021-4294967296", "RUSTSEC-2021-0001-1", "CVE-1999-1"],
)
DATES = (
    ["2021-02-03", "2021-02-03", "2021-02-03", "2001-02-03", "2020-02-29", "2100-12-31", "2000-01-01"],
    ["2021-02-29", "1999-12-31", "2101-01-01", "2021-2-3", "2021-13-01", "2021-02-00", "", "2021-02-03 ", "+2021-02-03"],
)
ADDRESSES = (
    ["https://example.com/a", "http://example.com/", "HTTPS://example.com/", "https:/example.com", "ftp://a.b/",
     "mailto:a@example.com", "https://例え.jp/", 'http://a.b/"', "http://a.b/'\""],
    ["example.com", "", "https://", "https://a b/"],
)
REQUIREMENTS = (
    [">= 1.2.3", ">= 1.2.3", "^1.2", "=1.2.3", "> 1.2.3", "~0.3", ">=1, <2", ">= 2.0.0-a", "*"],
    ["1.*", "", "1.2.3.4", ">=1, >=2", "< 1, > 2", ">= 18446744073709551616"],
)
PATHS = (
    ["base::Type::call", "base::call", "other::call", "base_x::call", "base::<A,B>::call", "Base::call", "_::_",
     "<base>::call", "aa::b"],
    ["base", "base::0a", "base-x::call", "::a", "base::", "base::a b"],
)
VECTORS = (
    ["CVSS:3.1/AV:N/AC:L/PR:N/UI:N/S:C/C:H/I:H/A:H", "CVSS:3.0/A:N/I:L/C:L/S:C/UI:R/PR:N/AC:L/AV:N", "CVSS:4.0/x"],
    ["CVSS:4.0", "CVSS:3.1/AV:N/AC:L/PR:N/UI:N/S:C/C:H/I:H", "CVSS:3.1/av:N/AC:L/PR:N/UI:N/S:C/C:H/I:H/A:H", "",
     "CVSS:3.2/AV:N", "CVSS:3.1/AV:N/AC:L/PR:N/UI:N/S:C/C:H/I:H/A:H/A:H"],
)
SOURCES = (
    ["registry+https://github.com/rust-lang/crates.io-index", "sparse+https://index.crates.io/", "git+https://a.b/c?branch=x#d"],
    ["registry", "foo+https://a.b/", "registry+", ""],
)
COLLECTIONS = ["crates", "rust"], ["Crates", ""]
ARCHES = ["x86", "x86_64", "arm", "wasm32"], ["Arm", "vax", ""]
SYSTEMS = ["windows", "linux", "ios", "none"], ["Linux", "os2", ""]
KINDS = (CATEGORIES + ["invalid-category", "", "Malicious"], [])
FLAGS = ["true", "false"], ['"true"', "1"]
ODD_VALUES = ["1", "true", "1.5", "2021-02-03", "[]", "{}", '""', "[1]", '[""]', '[["a"]]', "'a'", '"""a"""', "a", ""]


def text(value):
    return json.dumps(value, ensure_ascii=False)


class Maker:
    """Makes the parts of one file; `odd` is how often a value is one that the reader refuses."""

    def __init__(self, r):
        self.r, self.odd = r, r.choice([0, 0, 0, 0, 0.05, 0.3])

    def strange(self):
        return self.r.random() < self.odd

    def one(self, values):
        good, bad = values
        return self.r.choice(bad if bad and self.strange() else good)

    def texts(self, values, most=3):
        return "[" + ", ".join(text(self.one(values)) for _ in range(self.r.randint(0, most))) + "]"

    def usually(self, value, values):
        return value if self.r.random() < 0.7 else self.one(values)

    def entries(self, lines):
        """The lines of a table, some of them out of order, of another kind, missing or doubled."""
        if self.strange():
            lines[self.r.choice(sorted(lines) or ["a"])] = self.r.choice(ODD_VALUES)
        if lines and self.strange():
            del lines[self.r.choice(sorted(lines))]
        lines = [f"{key} = {value}" for key, value in lines.items()]
        if self.r.random() < 0.5:
            self.r.shuffle(lines)
        if lines and self.strange():
            lines.append(self.r.choice(lines))
        return lines

    def more_keys(self):
        return {
            "title": text(self.one(([""], ["T"]))),
            "description": text(self.one(([""], ["D"]))),
            "aliases": self.texts(IDS),
            "related": self.texts(IDS),
            "collection": text(self.one(COLLECTIONS)),
            "categories": self.texts(KINDS),
            "keywords": self.texts((["how", "are", "you", "é", ""], [])),
            "cvss": text(self.one(VECTORS)),
            "informational": text(self.r.choice(["notice", "unmaintained", "unsound", "other", "", "Notice"])),
            "references": self.texts(ADDRESSES),
            "url": text(self.one(ADDRESSES)),
            "source": text(self.one(SOURCES)),
            "withdrawn": text(self.one(DATES)),
            "license": text(self.r.choice(["CC0-1.0", "CC-BY-4.0", "MIT", "", "cc0-1.0"])),
            "expect-deleted": self.one(FLAGS),
            "yanked": self.one(FLAGS),
            "invalid-key": '"invalid"',
            "Id": '"x"',
            "advisory": '"x"',
        }

    def advisory(self):
        lines = {
            "id": text(self.usually("RUSTSEC-2021-0001", IDS)),
            "package": text(self.r.choice(["base", "base", "base", "base-x", "other", "_"])),
            "date": text(self.usually("2021-02-03", DATES)),
        }
        more = self.more_keys()
        for key in self.r.sample(sorted(more), self.r.choice([0, 1, 1, 2, 3, 6])):
            lines[key] = more[key]
        return self.entries(lines)

    def versions(self):
        lines = {"patched": self.texts(REQUIREMENTS, 3)}
        if self.r.random() < 0.4:
            lines["unaffected"] = self.texts((["< 0.1.0", "< 0.3", "=0.1.0"], ["*", "1.*", "x"]), 1)
        if self.r.random() < 0.15:
            lines[self.r.choice(["obsolete", "Patched", "fixed"])] = self.r.choice(["[]", '"x"'])
        return self.entries(lines)

    def affected(self):
        lines = {}
        if self.r.random() < 0.5:
            lines["arch"] = self.texts(ARCHES)
        if self.r.random() < 0.5:
            lines["os"] = self.texts(SYSTEMS)
        if self.r.random() < 0.7:
            paths = {self.one(PATHS) for _ in range(self.r.randint(0, 3))}
            lines["functions"] = "{ " + ", ".join(f"{text(p)} = {self.texts(REQUIREMENTS, 2)}" for p in sorted(paths)) + " }"
        if self.r.random() < 0.2:
            lines[self.r.choice(["function", "platform", "OS"])] = self.r.choice(["[]", '"x"'])
        return self.entries(lines)

    def front(self):
        rest = [("versions", self.versions())]
        if self.r.random() < 0.5:
            rest.append(("affected", self.affected()))
        if self.r.random() < 0.15:
            rest.append((self.r.choice(["invalid-section", "metadata", "Advisory", "zz"]), ['a = "b"']))
        if self.strange():
            del rest[0]
        if self.r.random() < 0.3:
            self.r.shuffle(rest)
        tables = [("advisory", self.advisory()), *rest]
        front = "\n\n".join("\n".join([f"[{name}]", *lines]) for name, lines in tables)
        return front.removeprefix("[advisory]\n") if self.r.random() < 0.1 else front


def random_file(r):
    """The name and text of one file."""
    make = Maker(r)
    front = make.front()
    title = make.one((["# T", "# T", "# T ", "#  T", "# T é"], ["# ", "## T", "T", "#T", ""]))
    body = r.choice(["\n\nD\n", "\n\nD\n", "\n", "\nD", "\n\n" + FENCE + "\ncode\n" + FENCE + "\n"])
    gap = r.choice(["\n", "\n\n", "", "\n "])
    data = f"{FENCE}toml\n{front}\n{FENCE}{gap}{title}{body}"
    if r.random() < 0.05:
        data = data.replace("\n", "\r\n")
    data = data.encode()
    if make.strange():
        at = r.randrange(len(data))
        cut = data[at + r.choice([0, 1, 1, 5]):]
        data = data[:at] + r.choice([b"", b"\n", b"`", b"#", b"=", b"[", b"\xff", b"\xc3\xa9"]) + cut
    if r.random() < 0.8:
        return "RUSTSEC-2021-0001.md", data
    return make.one((["RUSTSEC-0000-0000.md", "RUSTSEC-0000-0000.x.md", "x.md"], ["a.MD", "a.txt", "md", ".md"])), data

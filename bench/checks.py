"""Random databases, lockfiles, policies and words for `check` and `check-many`. check_rules.py says what is wanted."""
import json
import os

import check_rules
import databases
import rules
from check_rules import KINDS, REGISTRY, SEVERITIES, SPARSE

ELSEWHERE = "registry+https://example.com/index"
COMMIT = "0123456789012345678901234567890123456789"
GIT = [f"git+https://github.com/example/base?branch=master#{COMMIT}", f"git+https://github.com/example/base#{COMMIT}"]
NAMES = ["app", "base", "http", "left", "tool"]
VERSIONS = [
    "0.0.3", "0.1.0", "0.1.5", "1.0.0", "1.2.3-alpha.1", "1.2.3", "1.2.3+b", "1.2.4", "1.9.9", "2.0.0", "2.1.0",
    "3.0.0",
]
REQUIREMENTS = [
    ">= 1.2.3", "> 1.2.3", "^1.2.3", "~1.2", "= 1.2.3", ">= 2.0.0", "^2", "^0.1.2", "^0.0.3", "> 2.1.0",
    ">= 1.0.0, < 1.2.0", ">= 0.1.5, < 1.0.0", "< 0.1.0", "< 1.0.0", "<= 0.1.0", "< 1.2.3-alpha.1", ">= 3.0.0",
    ">= 4.0.0-rc.1", "> 1.2.3-alpha.1", "> 1.2.3-beta, < 1.9.0",
]
BORDERS = ["0.0.0-0", "0.1.0", "1.0.0", "1.2.3", "2.0.0", "2.1.0", "3.0.0"]
VECTORS = [
    ("CVSS:3.1/AV:N/AC:L/PR:N/UI:N/S:C/C:H/I:H/A:H", "10.0", "critical"),
    ("CVSS:3.1/AV:N/AC:L/PR:N/UI:N/S:U/C:H/I:H/A:H", "9.8", "critical"),
    ("CVSS:3.1/AV:N/AC:L/PR:N/UI:N/S:U/C:N/I:N/A:H", "7.5", "high"),
    ("CVSS:3.0/AV:N/AC:L/PR:N/UI:R/S:C/C:L/I:L/A:N", "6.1", "medium"),
    ("CVSS:3.1/AV:L/AC:L/PR:L/UI:N/S:U/C:N/I:N/A:H", "5.5", "medium"),
    ("CVSS:3.1/AV:P/AC:H/PR:H/UI:R/S:U/C:L/I:N/A:N", "1.6", "low"),
    ("CVSS:3.1/AV:N/AC:L/PR:N/UI:N/S:U/C:N/I:N/A:N", "0.0", "none"),
    ("CVSS:4.0/AV:N/AC:L/AT:N/PR:N/UI:N/VC:H/VI:H/VA:H/SC:N/SI:N/SA:N", None, None),
]
ARCHES = ["x86_64", "aarch64", "arm"]
SYSTEMS = ["linux", "windows", "macos"]
TITLES = ["T", "A title", "Memory is read after it was freed", 'A "quoted" \\ title', "Größe → Länge"]
TODAY = "2025-06-15"


class Advisory:
    """An advisory, with the requirements of both lists as texts and as intervals."""

    def __init__(self, r, number):
        self.id = f"RUSTSEC-{r.choice([2019, 2020, 2021])}-{number:04}"
        self.package = r.choice(NAMES)
        self.collection = r.choice(["crates"] * 9 + ["rust"])
        self.date = f"20{r.randint(19, 25)}-0{r.randint(1, 9)}-1{r.randint(0, 9)}"
        self.withdrawn = f"2025-1{r.randint(0, 2)}-01" if r.random() < 0.1 else None
        self.informational = r.choice(KINDS * 4 + ["curious"]) if r.random() < 0.3 else None
        self.vector = r.choice(VECTORS) if r.random() < 0.7 else None
        self.aliases = [f"CVE-2021-{r.randint(1000, 9999)}"] if r.random() < 0.3 else []
        self.url = "https://example.com/a" if r.random() < 0.3 else None
        self.arch = r.sample(ARCHES, r.randint(1, 2)) if r.random() < 0.2 else []
        self.systems = r.sample(SYSTEMS, r.randint(1, 2)) if r.random() < 0.2 else []
        self.source = r.choice([SPARSE, ELSEWHERE]) if r.random() < 0.1 else None
        self.title = r.choice(TITLES)
        self.choose_lists(r)

    def choose_band(self, r):
        """Leaves the versions between two places of a line affected, so that the bands of several advisories touch."""
        low = r.randrange(len(BORDERS) - 1)
        high = r.choice([low + 1, low + 1, low + 2, len(BORDERS) - 1])
        self.patched = [f">= {BORDERS[min(high, len(BORDERS) - 1)]}"] if r.random() < 0.9 else []
        self.unaffected = [f"< {BORDERS[low]}"] if low else []

    def choose_lists(self, r, banded=False):
        """Draws lists until they are accepted."""
        while True:
            self.patched = r.sample(REQUIREMENTS, r.choice([0, 1, 1, 1, 2]))
            self.unaffected = r.sample(REQUIREMENTS, r.choice([0, 0, 0, 1, 1]))
            if banded:
                self.choose_band(r)
            self.intervals = [(rules.Interval(rules.comparators_of(t)), True) for t in self.patched]
            self.intervals += [(rules.Interval(rules.comparators_of(t)), False) for t in self.unaffected]
            pairs = [(a, b) for i, a in enumerate(self.intervals) for b in self.intervals[i + 1:]]
            if all(a[1] and b[1] for a, b in pairs if a[0].overlaps(b[0])):
                return

    def affects(self, version):
        return not any(interval.holds(version) for interval, _ in self.intervals)

    def text(self):
        keys = [f'id = "{self.id}"', f'package = "{self.package}"', f'date = "{self.date}"']
        keys += [f'withdrawn = "{self.withdrawn}"'] if self.withdrawn else []
        keys += [f'informational = "{self.informational}"'] if self.informational else []
        keys += [f'cvss = "{self.vector[0]}"'] if self.vector else []
        keys += [f'url = "{self.url}"'] if self.url else []
        keys += [f"aliases = {json.dumps(self.aliases)}"] if self.aliases else []
        keys += [f'source = "{self.source}"'] if self.source else []
        lists = [f"patched = {json.dumps(self.patched)}", f"unaffected = {json.dumps(self.unaffected)}"]
        of_platforms = []
        if self.arch or self.systems:
            of_platforms = ["", "[affected]", f"arch = {json.dumps(self.arch)}", f"os = {json.dumps(self.systems)}"]
        front = "\n".join(["[advisory]", *keys, "", "[versions]", *lists, *of_platforms])
        return f"```toml\n{front}\n```\n\n# {self.title}\n\nD\n"


class Package:
    def __init__(self, r, versions):
        self.name, self.version = r.choice(NAMES), r.choice(versions)
        self.source = r.choice([REGISTRY] * 9 + [SPARSE, ELSEWHERE, None, None, None, *GIT])
        self.entries, self.replace = [], None

    def same(self, other):
        return (self.name, self.version, self.source) == (other.name, other.version, other.source)

    def all_entries(self):
        return self.entries + ([self.replace] if self.replace else [])

    def text(self):
        lines = ["", "[[package]]", f'name = "{self.name}"', f'version = "{self.version}"']
        lines += [f'source = "{self.source}"'] if self.source else []
        lines += [f"dependencies = {json.dumps(self.entries)}"] if self.entries else []
        lines += [f'replace = "{self.replace}"'] if self.replace else []
        return "\n".join(lines) + "\n"

    def tree(self):
        return {"name": self.name, "version": self.version, "source": self.source}

    def short(self):
        return {"name": self.name, "version": self.version}


def entry_for(r, package):
    """A text of an entry that fits a package in a new or an old lockfile, or none."""
    with_version = f"{package.name} {package.version}"
    texts = [package.name, with_version, with_version, "gone 1.0.0"]
    if package.source:
        short = package.source.partition("#")[0]
        texts += [f"{with_version} ({source})" for source in (package.source, short, short.partition("?")[0])]
    return r.choice(texts)


class Lockfile:
    """A lockfile: its packages, or the kind of its refusal."""

    def __init__(self, packages, is_old=False, refused=None, data=None):
        self.packages, self.is_old, self.refused, self.data = packages, is_old, refused, data

    def text(self):
        head = "" if self.is_old else "version = 4\n"
        return self.data or (head + "".join(p.text() for p in self.packages)).encode()


def random_packages(r):
    """The packages of a lockfile, each at most once, with dependencies between them."""
    packages, versions = [], r.sample(VERSIONS, r.choice([2, 4, len(VERSIONS)]))
    for _ in range(r.choice([1, 2, 4, 6, 9])):
        package = Package(r, versions)
        if not any(package.same(other) for other in packages):
            packages.append(package)
    for package in packages:
        package.entries = [entry_for(r, r.choice(packages)) for _ in range(r.choice([0, 0, 1, 1, 2, 3]))]
        package.replace = entry_for(r, r.choice(packages)) if r.random() < 0.05 else None
    return packages


def random_lockfile(r):
    return Lockfile(random_packages(r) if r.random() < 0.98 else [], is_old=r.random() < 0.2)


# The lockfiles that are refused: no file, no lockfile, no text.
ABSENT = Lockfile([], refused="I/O operation failed")
BROKEN = Lockfile([], refused="parse error", data=b"package = 1\n")
LATIN = Lockfile([], refused="I/O operation failed", data=b"# \xe9\n")


def table(keys):
    """The lines of a TOML table's keys."""
    return [f"{key} = {json.dumps(value)}" for key, value in keys.items()]


class Asked:
    """A policy file and words, and what they come to."""

    def __init__(self, r, advisories, is_crowded):
        ids = [a.id for a in advisories] + [i for a in advisories for i in a.aliases] + ["RUSTSEC-2018-0001"]
        self.today = TODAY if r.random() < 0.9 else None
        self.entries = [self.entry(r, ids) for _ in range(r.choice([2, 4, 6] if is_crowded else [0, 0, 1, 2]))]
        self.is_by_headers = r.random() < 0.3
        self.words_ignored = [r.choice(ids) for _ in range(r.choice([0, 0, 0, 1]))]
        self.warnings = r.sample([*KINDS, "curious"], r.randint(0, 3)) if r.random() < 0.3 else None
        self.threshold = r.choice(SEVERITIES) if r.random() < 0.2 else None
        self.word_severity = r.choice(SEVERITIES) if r.random() < 0.1 else None
        denied = ["warnings", "unmaintained", "unsound", "yanked"]
        self.denied = r.sample(denied, r.choice([0, 0, 1, 2]))
        self.words_denied = r.sample(denied, r.choice([0, 0, 0, 1]))
        self.arch = r.sample(ARCHES, 1) if r.random() < 0.15 else []
        self.words_arch = r.sample(ARCHES, 1) if r.random() < 0.1 else []
        self.systems = r.sample(SYSTEMS, 1) if r.random() < 0.15 else []
        self.words_systems = r.sample(SYSTEMS, 1) if r.random() < 0.1 else []
        self.allows_empty = r.random() < 0.7
        self.format = r.choice(["json", "terminal", "sarif"]) if r.random() < 0.2 else None
        self.shown = {key: r.random() < 0.5 for key in ("quiet", "show_tree") if r.random() < 0.1}
        self.source = r.choice(["all", "public", "local"]) if r.random() < 0.15 else None
        self.database = {key: value for key, value in (
            ("path", "~/.cargo/advisory-db"), ("url", "https://github.com/RustSec/advisory-db.git"),
            ("fetch", r.random() < 0.5), ("stale", r.random() < 0.5)) if r.random() < 0.1}
        self.yanked = {key: r.random() < 0.5 for key in ("enabled", "update_index") if r.random() < 0.1}
        self.says_format = self.format != "json" or r.random() < 0.5

    @staticmethod
    def entry(r, ids):
        reason = "it is not called" if r.random() < 0.5 else None
        until = r.choice(["2025-06-14", TODAY, "2025-06-16"]) if r.random() < 0.4 else None
        return r.choice(ids), reason, until

    def ignore_lines(self):
        """The entries of `ignore`: in an array, or each below a header of its own."""
        def keys_of(id_, reason, until):
            more = [f'reason = "{reason}"'] if reason else []
            return [f'id = "{id_}"', *more, *([f'until = "{until}"'] if until else [])]

        if self.is_by_headers:
            return [line for e in self.entries for line in ("[[advisories.ignore]]", *keys_of(*e))]
        entries = ["{ " + ", ".join(keys_of(*e)) + " }" if e[1] or e[2] else json.dumps(e[0]) for e in self.entries]
        return ["ignore = [" + ", ".join(entries) + "]"]

    def policy(self):
        lines = ["[advisories]"]
        lines += [] if self.is_by_headers else self.ignore_lines()
        lines += [f"informational_warnings = {json.dumps(self.warnings)}"] if self.warnings is not None else []
        lines += [f'severity_threshold = "{self.threshold}"'] if self.threshold else []
        lines += self.ignore_lines() if self.is_by_headers else []
        lines += ["[output]", f"deny = {json.dumps(self.denied)}"]
        lines += [f'format = "{self.format}"'] if self.format else []
        lines += table(self.shown)
        lines += ["[target]", f"arch = {json.dumps(self.arch)}", f"os = {json.dumps(self.systems)}"]
        lines += ["[packages]", f'source = "{self.source}"'] if self.source else []
        lines += ["[database]", *table(self.database)] if self.database else []
        lines += ["[yanked]", *table(self.yanked)] if self.yanked else []
        return "\n".join(lines) + "\n"

    def words(self):
        out = ["--today", self.today] if self.today else []
        out += ["--format", "json"] if self.says_format else []
        repeated = (("--ignore", self.words_ignored), ("--deny", self.words_denied), ("--arch", self.words_arch),
                    ("--os", self.words_systems))
        out += [word for option, values in repeated for value in values for word in (option, value)]
        out += ["--severity", self.word_severity] if self.word_severity else []
        return out + (["--allow-empty"] if self.allows_empty else [])

    def is_refused(self):
        """Whether an entry has a last day, and no day is given."""
        return not self.today and any(until for _, _, until in self.entries)

    def entries_today(self):
        return [entry for entry in self.entries if not entry[2] or self.today <= entry[2]]

    def ignored(self):
        """The IDs that are ignored, in order: those of the policy that count today, then those of the words."""
        return [id_ for id_, _, _ in self.entries_today()] + self.words_ignored

    def least(self):
        return self.word_severity or self.threshold

    def denies(self, kind):
        denied = self.denied + self.words_denied
        return kind == "vulnerability" or "warnings" in denied or kind in denied


class Case:
    """A database, a lockfile, a baseline and what is asked, written below a folder."""

    def __init__(self, r, folder):
        self.folder, self.root = folder, os.path.join(folder, "database")
        os.makedirs(os.path.join(self.root, "crates"))
        self.advisories = [Advisory(r, number) for number in range(1, r.choice([0, 1, 3, 6, 9, 9]) + 1)]
        is_crowded = r.random() < 0.4
        if is_crowded:
            self.crowd(r)
        for a in self.advisories:
            databases.write(self.root, a.collection, a.package, a.id + ".md", a.text().encode())
        self.advisories.sort(key=lambda a: (("crates", "rust").index(a.collection), a.package, a.id))
        self.lockfile, self.asked = random_lockfile(r), Asked(r, self.advisories, is_crowded)
        self.lock = self.write("Cargo.lock", self.lockfile)
        databases.write(folder, "audit.toml", self.asked.policy().encode())
        self.options = ["--policy", os.path.join(folder, "audit.toml"), *self.asked.words()]
        self.refused = "bad parameter" if self.asked.is_refused() else None
        self.choose_baseline(r)

    def crowd(self, r):
        """Makes most advisories vulnerabilities of one package, so that ignored ones decide what to update it to."""
        name = r.choice(NAMES)
        for a in self.advisories:
            if r.random() < 0.9:
                a.package, a.collection, a.withdrawn, a.informational, a.source = name, "crates", None, None, None
                a.choose_lists(r, banded=True)

    def write(self, name, lockfile):
        databases.write(self.folder, name, lockfile.text())
        return os.path.join(self.folder, name)

    def choose_baseline(self, r):
        self.baseline, self.is_baseline_missing = None, False
        if r.random() < 0.2:
            self.baseline = [p for p in self.lockfile.packages if r.random() < 0.5]
            path = self.write("old.lock", Lockfile(self.baseline))
            self.is_baseline_missing = r.random() < 0.05
            self.options += ["--baseline", path + ("-" if self.is_baseline_missing else "")]

    def words(self):
        return ["check", self.root, self.lock, *self.options]

    def answer(self):
        return check_rules.answer(self)

    def many(self, r):
        """The words and the input of `check-many` over some lockfiles, and its answer."""
        others = [(self.write(f"{at}.lock", lockfile), lockfile)
                  for at, lockfile in enumerate([random_lockfile(r) for _ in range(r.randint(0, 3))])]
        listed = [(self.lock, self.lockfile), (os.path.join(self.folder, "absent.lock"), ABSENT), *others]
        listed += [(self.write(name, one), one) for name, one in (("broken.lock", BROKEN), ("latin.lock", LATIN))]
        listed = [r.choice(listed) for _ in range(r.randint(1, 6))]
        data = "".join(path + "\n" for path, _ in listed).encode()
        return ["check-many", self.root, *self.options], data, check_rules.many_answer(self, listed)

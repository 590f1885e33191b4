"""Words, files and inputs of the program's commands, taken apart and put together again."""
import json
import os

import advisories
import checks
import databases
import pieces

MODIFIED = "2020-01-01T00:00:00Z"
# The commands, and the statuses that each may have with enough memory.
STATUSES = {
    "affected": [0, 2], "ranges": [0, 2], "lint": [0, 1, 2], "osv": [0, 2], "report": [0, 1, 2], "audit": [0, 1, 2],
    "check": [0, 1, 2], "check-many": [0, 1, 2], "explain": [0, 2], "lint-database": [0, 1, 2], "stats": [0, 2],
    "osv-database": [0, 1, 2], "query-osv": [0, 2],
}
# Words for each command after its name. They name no file.
WORDS = {
    "affected": [], "ranges": [], "lint": ["x.md"], "osv": ["x.md", "m"], "report": ["x", "y"], "audit": ["x", "y"],
    "check": ["x", "y"], "check-many": ["x"], "explain": ["x", "y", "z"], "lint-database": ["x"], "stats": ["x"],
    "osv-database": ["x", "m"], "query-osv": ["x", "y", "1.0.0"],
}
OF_CHECKS = ("check", "check-many", "explain")
FORMS = ["text", "json", "sarif", "markdown", "html"]
ODD_WORDS = ["", "-", "--", "--x", "--policy", "--format", "--index", "--today", "--null", "x", "json", "\n", "é", "/", ".."]
ODD_VALUES = {
    "--today": ["2026-11-25", "2026-02-30", "0000-01-01", "9999-12-31", "x"], "--severity": ["none", "critical", "High", ""],
    "--deny": ["warnings", "yanked", "notice", ""], "--arch": ["x86_64", "x"], "--os": ["linux", "Linux"],
    "--color": ["always", "never", "auto"], "--format": [*FORMS, *FORMS, "xml", ""], "--ignore": ["RUSTSEC-2021-0001", "CVE-2021-1000", "x", ""],
}
FLAGS = ["--allow-empty", "--null", "--progress"]
# The most packages, advisories and entries of a policy of a check, the most lockfiles of a list, and the most versions of
# a package in an index: the sizes of "Large inputs" in docs/TESTING.md.
CHECKED, LISTED, INDEXED = 300, 5, 1000


def write(path, data):
    os.makedirs(os.path.dirname(path), exist_ok=True)
    with open(path, "wb") as f:
        f.write(data)
    return path


def many_files(r, root):
    """Writes up to some thousand advisories, each about a package of its own."""
    for n in range(r.randrange(pieces.FILES)):
        path = os.path.join(root, "crates", f"many-{n}", f"RUSTSEC-2019-{n:04}.md")
        write(path, pieces.small_advisory(f"RUSTSEC-2019-{n:04}", f"many-{n}").encode())


def root_of(r, folder, often=0.5):
    """A root with an advisory or a few, one of them changed as often as given; seldom one with thousands."""
    root = os.path.join(folder, "root")
    os.makedirs(os.path.join(root, "crates"), exist_ok=True)
    databases.random_database(r, root)
    if r.random() < pieces.LARGE:
        many_files(r, root)
    if r.random() < often:
        write(os.path.join(root, "crates", "base", "RUSTSEC-2021-0009.md"), pieces.file_input(r))
    return root


def files_below(folder):
    return sorted(os.path.join(top, name) for top, _, names in os.walk(folder) for name in names)


def bytes_below(folder):
    """The paths and the bytes of all files below a folder."""
    data = b""
    for path in files_below(folder):
        with open(path, "rb") as f:
            data += path[len(folder):].encode() + b"\n" + f.read() + b"\n"
    return data


def change_file(r, path, other):
    """Puts a changed text in a file's place."""
    with open(path, "rb") as f:
        data = f.read()
    write(path, pieces.changed(r, data, other or data))


def changed_words(r, words):
    """Words, some of them left out, doubled, exchanged or odd; mostly the words themselves."""
    words = list(words)
    for _ in range(r.choice([0] * 8 + [1, 1, 2])):
        at, to = r.randrange(len(words) + 1), r.randrange(len(words) + 1)
        words[at:at + 1] = r.choice([[], words[at:at + 1] * 2, [r.choice(ODD_WORDS)], [*words[at:at + 1], r.choice(ODD_WORDS)], words[to:to + 1]])
    return words


def more_options(r):
    """Options of a check, some with odd values."""
    words = []
    for _ in range(r.choice([0, 0, 0, 1, 3])):
        option = r.choice([*ODD_VALUES, *FLAGS])
        words += [option] if option in FLAGS else [option, r.choice(ODD_VALUES[option])]
    return words


# ---- a registry's index


def index_folder(name):
    """The folder of a name's file below an index."""
    return ("3", name[0]) if len(name) == 3 else (name[:2], name[2:4])


def index_file(r, name, is_cache):
    """The file of a name: a line for each version, or Cargo's cache of them. Seldom it has hundreds of versions."""
    versions = r.sample(checks.VERSIONS, r.randint(0, 6))
    if r.random() < pieces.LARGE:
        versions = [f"{n}.0.0" for n in range(pieces.size(r, INDEXED))]
    lines = [json.dumps({"name": name, "vers": v, "deps": [], "cksum": "0" * 64, "features": {}, "yanked": r.random() < 0.3}) for v in versions]
    if not is_cache:
        return "".join(line + "\n" for line in lines).encode()
    return b"\x03\x02\0\0\0revision\0" + "".join(f"{v}\0{line}\0" for v, line in zip(versions, lines)).encode()


def index_of(r, folder):
    """An index, whose files may be changed."""
    is_cache = r.random() < 0.5
    top = os.path.join(folder, "index", *[".cache"] * is_cache)
    os.makedirs(top)
    for name in r.sample(checks.NAMES, r.randint(0, len(checks.NAMES))):
        path = write(os.path.join(top, *index_folder(name), name), index_file(r, name, is_cache))
        if r.random() < 0.2:
            change_file(r, path, index_file(r, name, not is_cache))
    return os.path.join(folder, "index")


# ---- checks


def large_check(r, case):
    """Makes a check large: packages in a chain, each with an advisory, and a policy with an entry for each of them."""
    count = pieces.size(r, CHECKED)
    lock = ["version = 4\n"]
    for n in range(count):
        databases.write(case.root, "crates", f"chain-{n}", f"RUSTSEC-2018-{n:04}.md", pieces.small_advisory(f"RUSTSEC-2018-{n:04}", f"chain-{n}").encode())
        needed = f'dependencies = ["chain-{n + 1}"]\n' if n + 1 < count else ""
        lock.append(databases.package(f"chain-{n}", f"0.{n}.0", databases.REGISTRY) + needed)
    write(case.lock, "".join(lock).encode())
    if r.random() < 0.5:
        entries = "".join(f'{{ id = "RUSTSEC-2018-{n:04}", reason = "r", until = "2026-01-01" }},\n' for n in range(count))
        write(policy_of(case), f"[advisories]\nignore = [\n{entries}]\n".encode())


def policy_of(case):
    return os.path.join(case.folder, "audit.toml")


def change_case(r, case):
    """Changes the files of a check: a policy, a lockfile, an advisory."""
    if r.random() < 0.25:
        change_file(r, policy_of(case), r.choice(pieces.POLICIES).encode())
    if r.random() < 0.15:
        write(case.lock, pieces.changed(r, case.lockfile.text(), pieces.text_for(r, "lockfile").encode()))
    if r.random() < 0.1:
        write(os.path.join(case.root, "crates", "base", "RUSTSEC-2021-0009.md"), pieces.file_input(r))
    if r.random() < 0.02:
        databases.write(case.folder, "database", "crates", "x", "RUSTSEC-2021-0008.md", b"\xff")


def list_of(r, case):
    """The input of `check-many`: paths of lockfiles. Some are missing or refused, and some are not paths."""
    paths = [case.lock, case.root, policy_of(case), "", "absent", "\0", case.lock + "\r"]
    if r.random() < pieces.LARGE:
        return "".join(case.lock + "\n" for _ in range(LISTED)).encode()
    text = "".join(r.choice([case.lock, *paths]) + r.choice(["\n"] * 6 + ["\0"]) for _ in range(r.randint(0, LISTED)))
    return pieces.changed(r, text.encode(), case.lock.encode()) if r.random() < 0.3 else text.encode()


def check_input(r, folder, command):
    """The words and the input of `check`, `check-many` or `explain`."""
    case = checks.Case(r, folder)
    if r.random() < pieces.LARGE:
        large_check(r, case)
    change_case(r, case)
    options = [*case.options, *more_options(r), *(["--format", r.choice(FORMS)] if r.random() < 0.7 else [])]
    options += ["--index", index_of(r, folder)] if r.random() < 0.3 else []
    asked = [r.choice([*checks.NAMES, *(a.id for a in case.advisories), "RUSTSEC-2018-0000", "chain-0", "CVE-2021-1000", "", "\n"])]
    words = {"check": [case.root, case.lock], "check-many": [case.root], "explain": [case.root, case.lock, *asked]}[command]
    return [command, *changed_words(r, [*words, *options])], list_of(r, case) if command == "check-many" else b""


# ---- databases


def database_input(r, folder, command):
    """The words of a command over a whole database."""
    root = root_of(r, folder, 0.5 if command == "lint-database" else 0.1)
    form = ["--format", r.choice(["text", "json", "json", "xml"])]
    words = {
        "lint-database": [root, *r.choice([[], form]), *r.choice([[], ["--upstream"]]), *r.choice([[], ["--progress"]])],
        "stats": [root, *r.choice([[], form])],
        "osv-database": [root, r.choice([MODIFIED, "m", ""]), *r.choice([[], ["--skip-withdrawn"]]), *r.choice([[], ["--normalized"]])],
        "query-osv": [root, r.choice([*databases.NAMES, "", "\n"]), databases.random_version(r) if r.random() < 0.9 else r.choice(pieces.NUMBERS)],
    }[command]
    return [command, *changed_words(r, words)]


def command_input(r, folder, command):
    """The words and the input of a command, and the bytes that it reads."""
    if command in ("affected", "ranges"):
        data = pieces.lines_input(r, command)
        return [command], data, data
    if command in ("lint", "osv"):
        data = pieces.file_input(r)
        path = write(os.path.join(folder, "file", "RUSTSEC-2021-0001.md"), data)
        return [command, path, *[MODIFIED] * (command == "osv")], b"", data
    if command in OF_CHECKS:
        words, given = check_input(r, folder, command)
        return words, given, given + bytes_below(folder)
    if command not in ("report", "audit"):
        return database_input(r, folder, command), b"", bytes_below(folder)
    root, lock = root_of(r, folder), write(os.path.join(folder, "Cargo.lock"), pieces.lockfile_input(r))
    return [command, root, lock, *(databases.random_options(r) if command == "audit" else [])], b"", bytes_below(folder)

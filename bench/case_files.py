"""Reads the cases of crates/rustsec_cases/data. README.md beside that crate has their form."""
import os
import re

ROOT = os.path.dirname(os.path.dirname(os.path.realpath(__file__)))
DATA = os.path.join(ROOT, "crates", "rustsec_cases", "data")
HEAD = re.compile(r"-- (.+) --\n?\Z")
WORD = re.compile(r'"([^"]*)"|([^ "][^ ]*)')


class BadCase(Exception):
    """A file that is not a case, with the reason."""


class Case:
    """A case: its words, its files, and what is expected. `parts` has the kinds whose lines are parts alone."""

    def __init__(self, name, path):
        self.name, self.path = name, path
        self.words, self.files, self.input = None, [], b""
        self.expected, self.parts, self.status, self.is_real = {}, set(), None, False


def words_of(line):
    """The words of the line after `$`."""
    words, at = [], 0
    rest = line[1:]
    if not rest:
        return words
    while at < len(rest):
        if rest[at] != " ":
            raise BadCase("the words are not separated by one blank")
        found = WORD.match(rest, at + 1)
        if not found:
            raise BadCase("a word is missing or has no closing quote")
        words.append(found[2] if found[2] is not None else unescaped(found[1]).decode())
        at = found.end()
    return words


def unescaped(text):
    """The bytes of the lines of an escaped section."""
    def one(found):
        kind = found[1]
        if kind[:1] == b"x":
            return bytes([int(kind[1:], 16)])
        if kind == b"\n":
            return b""
        if kind not in (b"\\", b"r", b"t"):
            raise BadCase(f"an unknown escape \\{kind.decode(errors='replace')}")
        return {b"\\": b"\\", b"r": b"\r", b"t": b"\t"}[kind]
    return re.sub(rb"\\(x[0-9a-fA-F]{2}|.|\n)", one, text.encode(), flags=re.S)


def sections_of(lines):
    """The sections: pairs of a head and the bytes of the contents."""
    sections = []
    for line in lines:
        found = HEAD.match(line)
        if found:
            sections.append([found[1], []])
        elif sections:
            sections[-1][1].append(line)
        else:
            raise BadCase(f"a line before the first section: {line.rstrip()[:60]!r}")
    read = []
    for head, own in sections:
        is_escaped = head.startswith("escaped ")
        text = "".join(own)
        read.append((head.removeprefix("escaped "), unescaped(text) if is_escaped else text.encode()))
    return read


def text_of(path):
    with open(path, encoding="utf-8", newline="") as it:
        return it.read()


def shared(data, name):
    path = os.path.join(data, "shared", name)
    if not os.path.isfile(path):
        raise BadCase(f"data/shared has no file {name}")
    return path


def add_file(case, data, head, contents):
    """Adds what a section `file`, `files` or `folder` says."""
    kind, _, rest = head.partition(" ")
    if kind == "files":
        for it, own in sections_of(text_of(shared(data, f"{rest}.files")).splitlines(keepends=True)):
            if it.partition(" ")[0] not in ("file", "folder"):
                raise BadCase(f"{rest}.files has a section {it}")
            add_file(case, data, it, own)
    elif kind == "folder":
        case.files.append((rest, None))
    else:
        path, is_shared, name = rest.partition(" = ")
        if is_shared:
            with open(shared(data, name), "rb") as it:
                own = it.read()
        else:
            own = contents
        case.files.append((path, own))
    if (kind != "file" or " = " in rest) and contents:
        raise BadCase(f"the section {head} has lines")


def add_section(case, data, head, contents):
    if head.partition(" ")[0] in ("file", "files", "folder"):
        return add_file(case, data, head, contents)
    if head == "input":
        case.input = contents
    elif head in ("output", "notes", "output in part", "notes in part"):
        kind = head.split(" ")[0]
        if kind in case.expected:
            raise BadCase(f"two sections {kind}")
        case.expected[kind] = contents
        if head.endswith("in part"):
            if not contents:
                raise BadCase(f"the section {head} has no line")
            case.parts.add(kind)
    elif head == "real files" and not contents:
        case.is_real = True
    elif re.fullmatch(r"status \d+", head) and not contents:
        if case.status is not None:
            raise BadCase("two sections status")
        case.status = int(head.split(" ")[1])
    else:
        raise BadCase(f"an unknown section {head}, or one with lines")


def read_case(data, path):
    """The case of a file."""
    case = Case(os.path.basename(path).removesuffix(".case"), path)
    lines = text_of(path).splitlines(keepends=True) if "\r" not in text_of(path) else None
    if lines is None:
        raise BadCase("it has a carriage return")
    try:
        at = next(i for i, line in enumerate(lines) if line[:1] == "$")
    except StopIteration:
        raise BadCase("it has no line of words, which begins with `$`") from None
    if at < 2 or lines[at - 1] != "\n" or not lines[0].strip():
        raise BadCase("a sentence and a blank line come before the words")
    if not lines[-1].endswith("\n"):
        raise BadCase("its last line has no line feed")
    case.words = words_of(lines[at].rstrip("\n"))
    for head, contents in sections_of(lines[at + 1:]):
        add_section(case, data, head, contents)
    if "output" not in case.expected or case.status is None:
        raise BadCase("it has no output or no status")
    return case


def read_all(data):
    """The cases below a folder, and what is wrong there."""
    cases, faults, names = [], [], {}
    for folder in sorted(os.listdir(data)):
        at = os.path.join(data, folder)
        if folder == "shared" or not os.path.isdir(at):
            if folder != "shared":
                faults.append(f"{folder}: it is not a folder")
            continue
        files = sorted(os.listdir(at))
        if not files:
            faults.append(f"{folder}: it has no case")
        for file in files:
            path = os.path.join(at, file)
            try:
                if not file.endswith(".case"):
                    raise BadCase("its name does not end in .case")
                if file in names:
                    raise BadCase(f"{names[file]} has this name too")
                names[file] = folder
                cases.append(read_case(data, path))
            except (BadCase, UnicodeDecodeError) as why:
                faults.append(f"{folder}/{file}: {why}")
    if not cases:
        faults.append("there is no case")
    return cases, faults


def written(contents):
    """Contents as a section has them: whether they are escaped, and the lines."""
    try:
        text = contents.decode()
        is_plain = not contents or text.endswith("\n")
        is_plain = is_plain and all(c.isprintable() or c == "\n" for c in text)
        is_plain = is_plain and not any(HEAD.match(line) for line in text.splitlines(keepends=True))
    except UnicodeDecodeError:
        is_plain = False
    if is_plain:
        return "", contents.decode()
    lines = contents.decode(errors="surrogateescape")
    shown = ""
    for c in lines:
        if c == "\n" or c.isprintable() and c != "\\":
            shown += c
        elif c in "\\\r\t":
            shown += {"\\": "\\\\", "\r": "\\r", "\t": "\\t"}[c]
        else:
            shown += "".join(f"\\x{b:02x}" for b in c.encode(errors="surrogateescape"))
    shown = re.sub(r"(?m)^-- ", r"\\x2d- ", shown)
    return "escaped ", shown if shown.endswith("\n") or not shown else shown + "\\\n"

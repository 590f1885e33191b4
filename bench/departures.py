"""Where the answers of the two programs are meant to differ, each with its reason. docs/DIFFERENCES.md
says the same in words. A departure of `affected` or `ranges` explains a difference only where ours is what the rules
answer."""
import re
import tomllib

import rules

PANIC = (b"panic\n", 101)


def numbers_at_the_limit(command, data, ours, theirs):
    """The Rust crate adds one to a number of 2^64-1, which stops it; ours refuses the lists."""
    return theirs == PANIC and rules.answer(command, data) == (ours, "limit")


def equal_starts(command, data, ours, theirs):
    """The Rust crate takes two intervals with the same start version (`=1.0.0` beside `> 1.0.0`) for a
    fault of its own, though they don't overlap, and stops; ours accepts them."""
    return theirs == PANIC and rules.answer(command, data) == (ours, "equal starts")


REFUSED = (b"refused: bad parameter\n", 2)


def merged_patched(command, data, ours, theirs):
    """The Rust crate refuses patched requirements that overlap; ours merges them."""
    return theirs in (REFUSED, PANIC) and rules.answer(command, data) == (ours, "merged")


OF_LINES = [numbers_at_the_limit, equal_starts, merged_patched]


def with_its_table(data):
    """Front matter may leave its first line `[advisory]` out. The Rust crate reads such an advisory, but
    its linter then takes each of its keys for a key of the top level; ours puts the line there for both.
    So the Rust crate's program is given the file with that line."""
    fence = b"```toml"
    rest = data[len(fence):].lstrip()
    if not data.startswith(fence) or rest.startswith(b"[advisory]"):
        return data
    return fence + b"\n[advisory]\n" + rest


def number_of_an_advisory(command, data, ours, theirs):
    """The number above, in the lists of an advisory: there ours refuses the file."""
    return theirs == PANIC and ours == (b"refused: parse error\n", 2) and b"18446744073709551615" in data


def starts_of_an_advisory(command, data, ours, theirs):
    """The two starts above, in the lists of an advisory: there ours lints it."""
    equal, above = (set(re.findall(sign + rb"\s*([0-9][0-9A-Za-z.+-]*)", data)) for sign in (rb"=", rb">"))
    return theirs == PANIC and ours[1] < 2 and bool(equal & above)


def lists_of(text):
    """The patched and the unaffected requirements of an advisory, as lines of `ranges`."""
    front = re.match(r"```toml(.*?)\r?\n```", text, re.S)
    try:
        lists = tomllib.loads(front[1])["versions"]
        return "".join(f"{word} {r}\n" for word in ("patched", "unaffected") for r in lists.get(word, [])).encode()
    except (TypeError, KeyError, ValueError, AttributeError):
        return b""


def has_merged(text):
    return rules.answer("ranges", lists_of(text.decode(errors="replace")))[1] == "merged"


def merged_patched_of_an_advisory(command, data, ours, theirs):
    """The overlap above, in the list of an advisory: there ours reads it, and its export may be empty."""
    return theirs in ((b"refused: parse error\n", 2), REFUSED, PANIC) and ours != theirs and has_merged(data)


def starts_in_some_file(command, data, ours, theirs):
    """The two starts, in a file of a database that ours reads, and may refuse for its place."""
    return starts_of_an_advisory(command, data, (ours[0], 0), theirs)


def read_values(text):
    """What lint prints, with each value of an ID, a URL or a day as the string that it is in TOML."""
    def read(match):
        try:
            return b"invalid value " + repr(tomllib.loads("a = " + match[1].decode())["a"]).encode() + match[2]
        except (tomllib.TOMLDecodeError, UnicodeDecodeError):
            return match[0]
    return re.sub(rb"invalid value `((?:(?!invalid value `).)*?)`( for key `(?:id|url|date)`)", read, text, flags=re.S)


def quoting_of_a_value(command, data, ours, theirs):
    """A lint error prints an ID or a URL as a TOML string. Each program has a TOML writer, and they choose other quotes and
    escapes for the same string."""
    return ours[1] == theirs[1] < 2 and read_values(ours[0]) == read_values(theirs[0])


def fault_of_a_source(command, data, ours, theirs):
    """The Rust crate's linter calls `source` an invalid key, though its reader knows it; ours doesn't."""
    return b"source" in data and ours[0] == theirs[0].replace(b"invalid key `source` in [advisory]\n", b"")


def starts_before_a_refusal(command, data, ours, theirs):
    """The two starts, in a file that ours refuses for what comes after them."""
    return ours == (b"refused: parse error\n", 2) and starts_of_an_advisory(command, data, (ours[0], 0), theirs)


def quoting_beside_a_source(command, data, ours, theirs):
    """Both of these in one file: other quotes, and a `source` that the Rust crate's linter calls invalid."""
    others = theirs[0].replace(b"invalid key `source` in [advisory]\n", b"")
    return b"source" in data and ours[1] == theirs[1] == 1 and read_values(ours[0]) == read_values(others)


def source_that_is_no_address(command, data, ours, theirs):
    """The Rust crate reads what comes after a source's kind as an address; ours takes any text, and may refuse the
    file for its place after that."""
    if theirs != (b"refused: parse error\n", 2):
        return False
    others = [it for it in re.findall(rb'source = "[a-z]+\+([^"]*)"', data)
              if not re.fullmatch(rb"[a-z]+://[A-Za-z0-9.-]+(/\S*)?", it)]
    misplaced = ours == (b"refused: git operation failed\n", 2) and bool(others)
    return b"source = " in data and (ours[1] < 2 or misplaced)


def message_cut_inside_a_character(command, data, ours, theirs):
    """The Rust crate cuts a message at byte 20, and stops where that is inside a character."""
    return theirs == PANIC and ours[0] == b"refused: parse error\n" and len(data) > 20 and 0x80 <= data[20] < 0xC0


def empty_name(command, data, ours, theirs):
    """The Rust crate reads the empty text as a package's name; in ours a name has a byte at least."""
    return ours == (b"refused: parse error\n", 2) and re.search(rb'(package|name) = ""\s', data)


def star_alone(command, data, ours, theirs):
    """The export of one requirement without comparators leaves no range: the Rust crate stops; ours refuses."""
    return theirs == PANIC and ours == (b"refused: bad parameter\n", 2)


def checksum_of_another_form(command, data, ours, theirs):
    """The Rust crate takes checksums of 64 hex digits alone; ours takes any text."""
    return b"checksum = " in data and theirs == (b"refused: parse error\n", 2) and ours[1] < 2


def files_of(data):
    """The files of a database and its lockfile, by their paths, out of their joined bytes."""
    paths = rb"(?:^|\n)(/Cargo\.lock|/(?:root|database)/(?:crates|rust)/[^/\n]*(?:/[^/\n]*)?)\n"
    _, *parts = re.split(paths, data)
    return dict(zip(parts[::2], parts[1::2]))


def first_of_faults(command, data, ours, theirs):
    """Ours goes file by file in the order of their names, and a file that cannot be read comes before any fault; the Rust
    crate goes in the disk's order. So with two faults in a database each may meet another one first."""
    refused = ours[1] == 2 and ours[0].startswith(b"refused: ")
    return refused and theirs[1] in (2, 101) and sum(not path.endswith(b"Cargo.lock") for path in files_of(data)) > 1


def merged_patched_in_some_file(command, data, ours, theirs):
    """The overlap above, in some file of a database."""
    refused = theirs in ((b"refused: parse error\n", 2), PANIC)
    return refused and ours != theirs and any(has_merged(text) for text in files_of(data).values())


def message_cut_in_some_file(command, data, ours, theirs):
    """The message above, of some file of a database."""
    cut = any(len(text) > 20 and 0x80 <= text[20] < 0xC0 for text in files_of(data).values())
    return theirs == PANIC and ours[1] == 2 and cut


def other_keys_of_a_lockfile(command, data, ours, theirs):
    """The Rust crate reads a lockfile's version, root, metadata, patches and dependencies too; ours takes any value there."""
    try:
        table = tomllib.loads(files_of(data)[b"/Cargo.lock"].decode())
    except (KeyError, ValueError, RecursionError):
        return False
    packages = table.get("package", [])
    packages = [p for p in packages if isinstance(p, dict)] if isinstance(packages, list) else []
    odd = table.get("version", 1) not in (1, 2, 3, 4) or table.keys() & {"root", "metadata", "patch"}
    return theirs == (b"refused: parse error\n", 2) and bool(odd or any(p.keys() & {"dependencies", "replace"} for p in packages))


def nesting(command, data, ours, theirs):
    """Ours reads 80 arrays, tables or parts of a key in one another, and refuses more. The Rust crate's program reads more of
    some, and ends by a signal at a thousand."""
    deep = any(line.count(mark) > 64 for line in data.splitlines() for mark in (b"[", b"{", b"."))
    return ours == (b"refused: parse error\n", 2) and deep


NEWER_FORMS = re.compile(rb"\\e|\\x[0-9A-Fa-f]{2}|\{[^}\n]*\n|,\s*\}|[0-9]{2}:[0-9]{2}(?![:0-9])")


def edition_of_toml(command, data, ours, theirs):
    """Ours reads TOML 1.1, which has more escapes, times without seconds, and inline tables over lines, with a comma at
    their end."""
    return theirs == (b"refused: parse error\n", 2) and ours[1] < 2 and NEWER_FORMS.search(data) is not None


def edition_before_a_fault(command, data, ours, theirs):
    """A form as above in a file that ours reads, and then refuses for another reason, such as its name."""
    refused = ours[1] == 2 and ours[0].startswith(b"refused: ") and ours != theirs
    return theirs == (b"refused: parse error\n", 2) and refused and NEWER_FORMS.search(data) is not None


def key_that_stands_twice(command, data, ours, theirs):
    """A key is in a table twice, which TOML refuses. The faster of the readers that theirs is built with passes over it
    where nothing asks for the key, and its linter then stops."""
    try:
        tomllib.loads(data.decode().partition("```toml")[2].partition("\n```")[0])
    except tomllib.TOMLDecodeError as error:
        is_passed = theirs[1] < 2 or theirs == PANIC
        return ours == (b"refused: parse error\n", 2) and is_passed and "overwrite" in str(error)
    except UnicodeDecodeError:
        pass
    return False


def key_that_stands_twice_in_some_file(command, data, ours, theirs):
    """The key above, in some file of a database."""
    return any(key_that_stands_twice(command, text, ours, theirs) for text in files_of(data).values())


OF_LINT = [
    number_of_an_advisory, starts_of_an_advisory, fault_of_a_source, source_that_is_no_address,
    message_cut_inside_a_character, empty_name, edition_of_toml, nesting, merged_patched_of_an_advisory,
    quoting_of_a_value, quoting_beside_a_source, key_that_stands_twice, starts_before_a_refusal,
]
OF_OSV = [
    number_of_an_advisory, starts_of_an_advisory, source_that_is_no_address, message_cut_inside_a_character, empty_name,
    star_alone, edition_of_toml, nesting, merged_patched_of_an_advisory, key_that_stands_twice, starts_before_a_refusal,
]
OF_DATABASES = [
    number_of_an_advisory, starts_in_some_file, source_that_is_no_address, message_cut_inside_a_character, empty_name,
    checksum_of_another_form, edition_of_toml, edition_before_a_fault, other_keys_of_a_lockfile, message_cut_in_some_file,
    merged_patched_in_some_file, first_of_faults, nesting, key_that_stands_twice_in_some_file,
]


def explained(departures, *case):
    """The name of the departure that explains a difference, if one does."""
    for departure in departures:
        if departure(*case):
            return departure.__name__
    return None

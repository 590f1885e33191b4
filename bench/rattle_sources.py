"""Reads the items of `.rt` files, with their contracts, and the definitions of `.antt` files, by braces and layout."""
import os
import re

CLAUSE = re.compile(r"(ensures|requires)(\*?)\s*(\w*)\s*\{")
HEAD = re.compile(r"(pub )?(?:const )?(fn|struct|enum|trait|const|type|mod)\s+([A-Za-z_]\w*)")
CHARACTER = re.compile(r"'(\\u\{[0-9a-fA-F]+\}|\\.|[^\\'])'")
RAW = re.compile(r'b?r(#*)"')


class Item:
    """A public or private item: what it is, its documentation, its text and its contract."""

    def __init__(self, kind, name, public, docs, start):
        self.kind, self.name, self.public, self.docs, self.start = kind, name, public, docs, start
        self.end, self.text, self.clauses, self.members = start, "", [], []
        self.owner, self.of_trait, self.file = None, None, None

    def path(self):
        return f"{self.owner}::{self.name}" if self.owner else self.name


class Clause:
    """A clause of a contract: its name, its text and the comment above it."""

    def __init__(self, name, text, comment):
        self.name, self.text, self.comment = name, text, comment


def after(text, i):
    """The place after the token that begins at `i`: a comment, a text, a character, or one byte."""
    if text.startswith("//", i):
        end = text.find("\n", i)
        return len(text) if end < 0 else end
    raw = RAW.match(text, i)
    if raw and (i == 0 or not (text[i - 1].isalnum() or text[i - 1] == "_")):
        end = text.find('"' + raw[1], raw.end())
        return len(text) if end < 0 else end + 1 + len(raw[1])
    if text[i] == '"':
        i += 1
        while i < len(text) and text[i] != '"':
            i += 2 if text[i] == "\\" else 1
        return i + 1
    character = CHARACTER.match(text, i)
    if character:
        return character.end()
    return i + 1


def block_end(text, i):
    """The place after the brace that closes the one at `i`. Ghost text has no characters in quotes, only texts."""
    depth = 0
    while i < len(text):
        if text[i] == "{":
            depth += 1
        elif text[i] == "}":
            depth -= 1
            if depth == 0:
                return i + 1
        i = after(text, i)
    return len(text)


def ghost_end(text, i):
    """Likewise for a clause, in which a quote may end a name."""
    depth = 0
    while i < len(text):
        if text[i] == '"':
            i = after(text, i)
            continue
        depth += {"{": 1, "}": -1}.get(text[i], 0)
        i += 1
        if depth == 0:
            return i
    return len(text)


def read_function(text, item):
    """Reads a function from its start: its signature, its clauses and its end."""
    i, depth, signature, comment = item.start, 0, None, []
    while i < len(text):
        here = text[i]
        if depth == 0:
            clause = CLAUSE.match(text, i) if text[i - 1].isspace() else None
            if clause:
                signature = i if signature is None else signature
                end = ghost_end(text, clause.end() - 1)
                item.clauses.append(Clause(clause[3], text[i:end], " ".join(comment)))
                comment, i = [], end
                continue
            if here == "{":
                signature = i if signature is None else signature
                i = block_end(text, i)
                break
            if here == ";":
                signature = i if signature is None else signature
                i += 1
                break
            if text.startswith("//", i):
                comment.append(text[i:after(text, i)].lstrip("/ "))
        depth += {"(": 1, "[": 1, ")": -1, "]": -1}.get(here, 0)
        i = after(text, i)
    item.end = i
    item.text = "\n".join(line for line in text[item.start:signature].rstrip().splitlines())


def plain_end(text, i):
    """The end of an item without a contract: at its semicolon, or after its braces."""
    depth = 0
    while i < len(text):
        if text[i] == "{" and depth == 0:
            return block_end(text, i)
        if text[i] == ";" and depth == 0:
            return i + 1
        depth += {"(": 1, "[": 1, ")": -1, "]": -1}.get(text[i], 0)
        i = after(text, i)
    return len(text)


def is_doc(line):
    return line.startswith("///") and not line.startswith("////")


def without_indent(text, indent):
    return "\n".join(line[indent:] if line[:indent].strip() == "" else line for line in text.splitlines())


def members_of(text, item, indent):
    """The fields, variants and functions at one level of layout in the braces of an item."""
    inner = text.find("{", item.start, item.end)
    if inner < 0:
        return []
    return items_in(text, inner + 1, item.end - 1, indent, item)


def field_of(line, start, docs, parent):
    """A field of a struct or a variant of an enum."""
    if parent is None or parent.kind not in ("struct", "enum"):
        return None
    if parent.kind == "struct":
        field = re.match(r"pub (\w+):", line)
        return Item("field", field[1], True, docs, start) if field else None
    variant = re.match(r"([A-Z]\w*)", line)
    return Item("variant", variant[1], True, docs, start) if variant else None


def items_in(text, start, end, indent, parent=None):
    """The items whose lines begin after `indent` spaces, between two places."""
    items, docs, i = [], [], start
    while i < end:
        stop = text.find("\n", i, end)
        stop = end if stop < 0 else stop
        line = text[i:stop]
        body = line[indent:] if line[:indent].strip() == "" else line
        begin = i + indent
        i = stop + 1
        if not body.strip() or line[:indent + 1].isspace():
            continue
        if is_doc(body):
            docs.append(body[3:].removeprefix(" "))
            continue
        if body.startswith("#"):
            i = max(i, begin + 1)
            if body.count("[") > body.count("]"):
                i = text.find("]\n", begin, end) + 2
            continue
        if body.startswith("//"):
            docs = []
            continue
        head = HEAD.match(body.replace("pub(crate) ", ""))
        if body.startswith("impl"):
            item = Item("impl", "", False, docs, begin)
            item.end = plain_end(text, begin)
            item.text = text[begin:text.find("{", begin)].strip()
            item.members = members_of(text, item, indent + 4)
            name_impl(item)
        elif head:
            public = head[1] is not None and not body.startswith("pub(crate)")
            item = Item(head[2], head[3], public, docs, begin)
            read_item(text, item, indent, parent)
        else:
            item = field_of(body, begin, docs, parent)
            if item:
                item.end = begin + len(body)
                item.text = body
            elif not body.startswith(("use ", "pub use ", "ghost use ")):
                i = max(i, min(end, plain_end(text, begin) + 1)) if "{" in body else i
            else:
                i = max(i, plain_use_end(text, begin))
        if item:
            items.append(item)
            i = max(i, item.end)
        docs = []
    return items


def plain_use_end(text, i):
    end = text.find(";", i)
    return len(text) if end < 0 else end + 1


def read_item(text, item, indent, parent):
    if item.kind == "fn":
        read_function(text, item)
        item.public = item.public or (parent is not None and parent.kind == "trait")
        return
    if item.kind == "const":
        end = text.find("=", item.start)
        item.text = text[item.start:end].rstrip()
        item.end = plain_end(text, item.start)
        return
    item.end = plain_end(text, item.start)
    item.text = text[item.start:item.end]
    if item.kind in ("struct", "enum", "trait", "mod"):
        item.members = members_of(text, item, indent + 4)


def name_impl(item):
    """The type that an `impl` is of, and its trait, if any."""
    header = re.sub(r"^impl\s*", "", " ".join(item.text.split()))
    if header.startswith("<"):
        depth = 0
        for place, here in enumerate(header):
            depth += {"<": 1, ">": -1}.get(here, 0)
            if depth == 0:
                header = header[place + 1:].strip()
                break
    header = header.split(" where ")[0]
    trait, _, subject = header.rpartition(" for ")
    name = re.search(r"([A-Za-z_]\w*)\s*(<.*)?$", re.sub(r"<.*", "", subject.strip().lstrip("&'a ")))
    item.name = name[1] if name else subject
    item.of_trait = trait or None


def ghost_uses(text, word="ghost use"):
    """The names that `use` brings in from the libraries of this repository: name -> (crate, module, its name there)."""
    names = {}
    for crate, module, listed in re.findall(
            word + r"\s+Rattle\.(rustsec\w*)\.specs\.([\w.]+?)\.\{([^}]*)\}", text):
        for part in listed.split(","):
            name, _, alias = part.strip().partition(" as ")
            if name:
                names[alias or name] = (crate, module, name)
    return names


class Definition:
    """A definition of `specs/`: its names, its text with the comment above it, and the words that it may cite."""

    def __init__(self, crate, module, names, text):
        self.crate, self.module, self.names, self.text = crate, module, names, text

    def key(self):
        return (self.crate, self.module, self.names[0])


DEFINES = re.compile(r"^(?:[a-z]+ )*pub (?:data |record )?(\S+)", re.M)
KEYWORDS = {"mod", "data", "record"}


def names_defined(paragraph):
    """The names that a paragraph defines, and the constructors of a type."""
    names = [name for name in DEFINES.findall(paragraph) if name not in KEYWORDS]
    if re.search(r"^pub data ", paragraph, flags=re.M):
        names += re.findall(r"^  (\S+) :", paragraph, flags=re.M)
    return names


def definitions_in(crate, module, text):
    """The definitions of a file: paragraphs that define a public name."""
    parts, found = re.split(r"\n\s*\n", text), []
    for part in parts:
        if found and part.startswith(" "):
            found[-1].text += "\n\n" + part.rstrip()
            continue
        names = names_defined(part)
        if names:
            lines = [line for line in part.splitlines() if not line.startswith("use ")]
            found.append(Definition(crate, module, names, "\n".join(lines).rstrip()))
    return found


WORD = re.compile(r"[^\s(){}\[\],.;:]+")


def words_in(text):
    """The words of a clause or a definition, without its comments and texts."""
    text = re.sub(r"--[^\n]*|//[^\n]*", "", text)
    text = re.sub(r'"(\\.|[^"\\])*"', " ", text)
    return set(WORD.findall(text))


def files_under(folder, extension):
    for where, folders, names in os.walk(folder):
        folders.sort()
        for name in sorted(names):
            if name.endswith(extension):
                yield os.path.join(where, name)

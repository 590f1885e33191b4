"""The rules of the OSV schema 1 that a document can be held to, for bench/osv_schema. A rule is a function of a
place and a value that gives each fault as the rule's name, the place and the value."""
import datetime
import re

import rules

CVSS_V2 = r"((AV:[NAL]|AC:[LMH]|Au:[MSN]|[CIA]:[NPC])(/|$))+"
CVSS_V3 = r"CVSS:3[.][01](/(AV:[NALP]|AC:[LH]|PR:[NLH]|UI:[NR]|S:[UC]|[CIA]:[NLH]|[A-Z]{1,3}:[A-Z]))+"
CVSS_V4 = (
    r"CVSS:4[.]0/AV:[NALP]/AC:[LH]/AT:[NP]/PR:[NLH]/UI:[NPA]/VC:[HLN]/VI:[HLN]/VA:[HLN]/SC:[HLN]/SI:[HLN]/SA:[HLN]"
    r"(/[A-Z]{1,3}:[A-Za-z]+)*"
)
SCORES = {"CVSS_V2": CVSS_V2, "CVSS_V3": CVSS_V3, "CVSS_V4": CVSS_V4}
# `DATABASE-ENTRY`, as the schema's page has it. Its file asks for a prefix in `id` alone, and allows any text in lists of IDs.
ID = r"[A-Za-z][A-Za-z0-9]*-.+"
TIME = r"\d{4}-\d\d-\d\dT\d\d:\d\d:\d\d(\.\d+)?Z"
# RFC 3986: the characters of a URI, brackets in the host alone.
URI_CHARACTER = r"(?:[A-Za-z0-9._~:/?@!$&'()*+,;=-]|%[0-9A-Fa-f]{2})"
URI = rf"[A-Za-z][A-Za-z0-9+.-]*:(//\[[0-9A-Fa-f:.]+\])?{URI_CHARACTER}*(#{URI_CHARACTER}*)?"
# The characters that a package URL leaves as they are.
PURL = r"pkg:cargo/(?:[A-Za-z0-9._~-]|%[0-9A-F]{2})+"
EVENTS = ("introduced", "fixed", "last_affected", "limit")
REFERENCES = (
    "ADVISORY", "ARTICLE", "DETECTION", "DISCUSSION", "REPORT", "FIX", "INTRODUCED", "GIT", "PACKAGE", "EVIDENCE", "WEB",
)
CREDITS = (
    "FINDER", "REPORTER", "ANALYST", "COORDINATOR", "REMEDIATION_DEVELOPER", "REMEDIATION_REVIEWER",
    "REMEDIATION_VERIFIER", "TOOL", "SPONSOR", "OTHER",
)


def text(pattern=None, rule="form"):
    def check(place, value):
        if not isinstance(value, str):
            yield "kind", place, value
        elif pattern and not re.fullmatch(pattern, value, re.DOTALL):
            yield rule, place, value
    return check


def one_of(*words):
    return text("|".join(words), "word")


def time(place, value):
    """A day and a time of RFC 3339, in UTC."""
    if not isinstance(value, str):
        yield "kind", place, value
        return
    try:
        assert re.fullmatch(TIME, value, re.ASCII)
        datetime.datetime.fromisoformat(value[:19])
    except (AssertionError, ValueError):
        yield "time", place, value


def items(check, unique=False):
    def checked(place, value):
        if not isinstance(value, list):
            yield "kind", place, value
            return
        for i, item in enumerate(value):
            yield from check(f"{place}[{i}]", item)
            if unique and item in value[:i]:
                yield "twice", f"{place}[{i}]", item
    return checked


def fields(keys, required=(), more=True):
    """An object: what is at its keys, which must be there, and whether others may."""
    def check(place, value):
        if not isinstance(value, dict):
            yield "kind", place, value
            return
        for key in required:
            if key not in value:
                yield "missing", f"{place}.{key}", None
        for key, inner in value.items():
            if key in keys:
                yield from keys[key](f"{place}.{key}", inner)
            elif not more:
                yield "unknown key", f"{place}.{key}", inner
    return check


def both(first, second):
    """Two rules, the second where the first finds no fault."""
    def check(place, value):
        found = list(first(place, value))
        yield from found or second(place, value)
    return check


def score(place, value):
    """A vector of its type."""
    if not re.fullmatch(SCORES[value["type"]], value["score"]):
        yield "score", f"{place}.score", value["score"]


def event(place, value):
    """One key, and a version: of SemVer, or 0 for the beginning."""
    if len(value) != 1:
        yield "one key", place, value
    for key, version in value.items():
        if not rules.VERSION.fullmatch(version) and (key, version) != ("introduced", "0"):
            yield "version", f"{place}.{key}", version


def key_of(version):
    return rules.Version(0, 0, 0, "0").key if version == "0" else rules.version_of(version).key


def events(place, value):
    """An introduction at least, not both kinds of ends, and rising versions, introduced and ended in turn."""
    kinds = [kind for item in value for kind in item]
    if "introduced" not in kinds:
        yield "an introduction", place, value
    if "fixed" in kinds and "last_affected" in kinds:
        yield "one kind of end", place, value
    keys = [key_of(version) for item in value for version in item.values()]
    if any(a > b for a, b in zip(keys, keys[1:])):
        yield "order", place, value
    if any((kind == "introduced") != (i % 2 == 0) for i, kind in enumerate(kinds)):
        yield "in turn", place, value


SEVERITY = both(fields({"type": one_of(*SCORES), "score": text()}, ("type", "score")), score)
EVENT = both(fields({key: text() for key in EVENTS}, more=False), event)
RANGE = fields(
    {"type": one_of("SEMVER"), "events": both(items(EVENT), events), "database_specific": fields({})}, ("type", "events"))
PACKAGE = fields(
    {"ecosystem": one_of("crates[.]io"), "name": text(".+"), "purl": text(PURL, "purl")}, ("ecosystem", "name"))
AFFECTED = fields({
    "package": PACKAGE,
    "severity": items(SEVERITY),
    "ranges": items(RANGE),
    "versions": items(text()),
    "ecosystem_specific": fields({}),
    "database_specific": fields({}),
}, ("package",), more=False)
REFERENCE = fields({"type": one_of(*REFERENCES), "url": text(URI, "url")}, ("type", "url"), more=False)
CREDIT = fields({"name": text(), "contact": items(text()), "type": one_of(*CREDITS)}, ("name",))
KEYS = {
    "schema_version": text(rules.VERSION.pattern),
    "id": text(ID, "id"),
    "modified": time,
    "published": time,
    "withdrawn": time,
    "aliases": items(text(ID, "id"), unique=True),
    "related": items(text(ID, "id"), unique=True),
    "upstream": items(text(ID, "id"), unique=True),
    "summary": text("[^\r\n]*"),
    "details": text(),
    "severity": items(SEVERITY),
    "affected": items(AFFECTED),
    "references": items(REFERENCE),
    "credits": items(CREDIT),
    "database_specific": fields({}),
}
DOCUMENT = fields(KEYS, ("id", "modified"), more=False)


def faults(document):
    """Each fault of a document."""
    return list(DOCUMENT("document", document))

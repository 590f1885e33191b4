"""The rules of SARIF 2.1.0 (OASIS) that a log can be held to, for bench/sarif, with the section of each. A rule is a
function of a place and a value that gives each fault as the rule's name, the place and the value."""
import re

from osv_rules import URI, URI_CHARACTER, both, fields, items, one_of, text

# RFC 3986, 4.1: an address, or a reference to one.
REFERENCE = rf"{URI_CHARACTER}*(#{URI_CHARACTER}*)?"
LEVELS = ("none", "note", "warning", "error")
STATES = ("new", "unchanged", "updated", "absent")
KINDS = ("pass", "open", "informational", "notApplicable", "review", "fail")
# The limits of GitHub: results of a run, rules of a run, tags of a rule.
MOST_RESULTS, MOST_RULES, MOST_TAGS = 25000, 25000, 20


def whole(least):
    """An integer, not below a least one."""
    def check(place, value):
        if not isinstance(value, int) or isinstance(value, bool):
            yield "kind", place, value
        elif value < least:
            yield "least", place, value
    return check


def at_most(number, check):
    """A list with no more items than this."""
    def checked(place, value):
        yield from check(place, value)
        if isinstance(value, list) and len(value) > number:
            yield "limit", place, len(value)
    return checked


def texts_at_keys(place, value):
    """An object whose values are texts."""
    if not isinstance(value, dict):
        yield "kind", place, value
        return
    for key, inner in value.items():
        yield from FILLED(f"{place}.{key}", inner)


def placeholders(place, value):
    """3.11.5: a brace is doubled unless it holds the index of an argument, and each index has an argument."""
    rest = value["text"].replace("{{", "").replace("}}", "")
    for index in re.findall(r"[{](\d+)[}]", rest):
        if int(index) >= len(value.get("arguments", [])):
            yield "argument", f"{place}.text", value["text"]
    if re.search(r"[{}]", re.sub(r"[{]\d+[}]", "", rest)):
        yield "brace", f"{place}.text", value["text"]


def severity(place, value):
    """GitHub: a number from 0.0 to 10.0, as a text."""
    if not isinstance(value, str):
        yield "kind", place, value
    elif not re.fullmatch(r"\d{1,2}(\.\d+)?", value, re.ASCII) or float(value) > 10:
        yield "severity", place, value


def line_of_region(place, value):
    """3.30: a region with a column has a line."""
    if "startColumn" in value and "startLine" not in value:
        yield "line", place, value


def rules_once(place, value):
    """3.19, 3.49.3: no two rules of a program have an ID."""
    ids = [rule["id"] for rule in value.get("rules", [])]
    for i, name in enumerate(ids):
        if name in ids[:i]:
            yield "twice", f"{place}.rules[{i}].id", name


def indexes(place, value):
    """3.27.5, 3.27.6: a result names a rule of the program, by its ID and its index."""
    ids = [rule["id"] for rule in value["tool"]["driver"].get("rules", [])]
    for i, result in enumerate(value.get("results", [])):
        where = f"{place}.results[{i}]"
        if "ruleIndex" in result:
            index = result["ruleIndex"]
            if index >= len(ids):
                yield "index", f"{where}.ruleIndex", index
            elif result.get("ruleId", ids[index]) != ids[index]:
                yield "rule", f"{where}.ruleId", result["ruleId"]
        elif "ruleId" not in result:
            yield "missing", f"{where}.ruleId", None


def states(place, value):
    """3.27.24: all results have a state, or none has."""
    have = ["baselineState" in result for result in value.get("results", [])]
    if any(have) and not all(have):
        yield "states", f"{place}.results", have.count(True)


FILLED = text(".+")
ABSOLUTE = text(URI, "uri")
MESSAGE = both(fields({"text": FILLED, "arguments": items(text())}, ("text",)), placeholders)  # 3.11
FORMATTED = fields({"text": FILLED, "markdown": FILLED}, ("text",))  # 3.12
PROPERTIES = fields({"tags": at_most(MOST_TAGS, items(text(), unique=True)), "security-severity": severity})  # 3.8
RULE = fields({  # 3.49
    "id": FILLED,
    "name": FILLED,
    "shortDescription": FORMATTED,
    "fullDescription": FORMATTED,
    "help": FORMATTED,
    "helpUri": ABSOLUTE,
    "properties": PROPERTIES,
}, ("id", "shortDescription", "fullDescription", "help"))
DRIVER = both(fields({  # 3.19
    "name": FILLED,
    "informationUri": ABSOLUTE,
    "rules": at_most(MOST_RULES, items(RULE)),
}, ("name",)), rules_once)
TOOL = fields({"driver": DRIVER}, ("driver",))  # 3.18
REGION = both(fields({  # 3.30
    "startLine": whole(1), "startColumn": whole(1), "endLine": whole(1), "endColumn": whole(1),
}), line_of_region)
ARTIFACT = fields({"uri": text(REFERENCE, "uri"), "index": whole(0)}, ("uri",))  # 3.4
PHYSICAL = fields({"artifactLocation": ARTIFACT, "region": REGION}, ("artifactLocation", "region"))  # 3.29
LOCATION = fields({"physicalLocation": PHYSICAL}, ("physicalLocation",))  # 3.28
RESULT = fields({  # 3.27
    "ruleId": FILLED,
    "ruleIndex": whole(0),
    "kind": one_of(*KINDS),
    "level": one_of(*LEVELS),
    "message": MESSAGE,
    "locations": at_most(1000, items(LOCATION)),
    "partialFingerprints": texts_at_keys,
    "baselineState": one_of(*STATES),
}, ("message", "locations"))
RUN = both(fields({  # 3.14
    "tool": TOOL,
    "results": at_most(MOST_RESULTS, items(RESULT)),
    "columnKind": one_of("utf16CodeUnits", "unicodeCodePoints"),
}, ("tool", "results")), both(indexes, states))
LOG = fields({  # 3.13
    "$schema": ABSOLUTE,
    "version": text(r"2\.1\.0", "version"),
    "runs": at_most(20, items(RUN)),
}, ("version", "runs"))


def faults(log):
    return list(LOG("", log))

"""Random JSON documents for bench/osv_agreement, and the rules of the OSV schema 1.7.0 by regular expressions, as its
`validation/schema.json` has them. A document keeps all rules, or one place of it was broken."""
import copy
import datetime
import re

PREFIX = (
    r"^(ASB-A|PUB-A|ALSA|ALBA|ALEA|BIT|CGA|CURL|CVE|DSA|DLA|ELA|DTSA|GHSA|GO|GSD|HSEC|KUBE|LBSEC|MAL|MINI|MGASA|OESA|OSV|"
    r"openSUSE-[SRFO]U|PHSA|PSF|PYSEC|RHBA|RHEA|RHSA|RLSA|RXSA|RSEC|RUSTSEC|SUSE-[SRFO]U|UBUNTU|USN|V8)-"
)
ECOSYSTEM = (
    r"^(AlmaLinux|Alpine|Android|Bioconductor|Bitnami|Chainguard|ConanCenter|CRAN|crates\.io|Debian|GHC|GitHub Actions|Go|"
    r"Hackage|Hex|Kubernetes|Linux|Mageia|Maven|MinimOS|npm|NuGet|openEuler|openSUSE|OSS-Fuzz|Packagist|Photon OS|Pub|PyPI|"
    r"Red Hat|Rocky Linux|RubyGems|SUSE|SwiftURL|Ubuntu|Wolfi|GIT)(:.+)?$"
)
TIME = r"\d{4}-\d{2}-\d{2}T\d{2}:\d{2}:\d{2}(\.\d+)?Z"
METRIC_2 = (
    r"(AV:[NAL]|AC:[LMH]|Au:[MSN]|[CIA]:[NPC]|E:(U|POC|F|H|ND)|RL:(OF|TF|W|U|ND)|RC:(UC|UR|C|ND)|CDP:(N|L|LM|MH|H|ND)|"
    r"TD:(N|L|M|H|ND)|[CIA]R:(L|M|H|ND))"
)
METRIC_3 = (
    r"(AV:[NALP]|AC:[LH]|PR:[NLH]|UI:[NR]|S:[UC]|[CIA]:[NLH]|E:[XUPFH]|RL:[XOTWU]|RC:[XURC]|[CIA]R:[XLMH]|MAV:[XNALP]|"
    r"MAC:[XLH]|MPR:[XNLH]|MUI:[XNR]|MS:[XUC]|M[CIA]:[XNLH])"
)
SCORES = {
    "CVSS_V2": rf"^({METRIC_2}/)*{METRIC_2}$",
    "CVSS_V3": rf"^CVSS:3[.][01]/({METRIC_3}/)*{METRIC_3}$",
    "CVSS_V4": (
        r"^CVSS:4[.]0/AV:[NALP]/AC:[LH]/AT:[NP]/PR:[NLH]/UI:[NPA]/VC:[HLN]/VI:[HLN]/VA:[HLN]/SC:[HLN]/SI:[HLN]/SA:[HLN]"
        r"(/E:[XAPU])?(/CR:[XHML])?(/IR:[XHML])?(/AR:[XHML])?(/MAV:[XNALP])?(/MAC:[XLH])?(/MAT:[XNP])?(/MPR:[XNLH])?"
        r"(/MUI:[XNPA])?(/MVC:[XNLH])?(/MVI:[XNLH])?(/MVA:[XNLH])?(/MSC:[XNLH])?(/MSI:[XNLHS])?(/MSA:[XNLHS])?(/S:[XNP])?"
        r"(/AU:[XNY])?(/R:[XAUI])?(/V:[XDC])?(/RE:[XLMH])?(/U:(X|Clear|Green|Amber|Red))?$"
    ),
    "Ubuntu": r"^(negligible|low|medium|high|critical)$",
}
EVENTS = ("introduced", "fixed", "last_affected", "limit")
REFERENCES = (
    "ADVISORY", "ARTICLE", "DETECTION", "DISCUSSION", "REPORT", "FIX", "INTRODUCED", "GIT", "PACKAGE", "EVIDENCE", "WEB",
)
CREDITS = (
    "FINDER", "REPORTER", "ANALYST", "COORDINATOR", "REMEDIATION_DEVELOPER", "REMEDIATION_REVIEWER",
    "REMEDIATION_VERIFIER", "TOOL", "SPONSOR", "OTHER",
)


def matches(pattern):
    return lambda v: isinstance(v, str) and re.search(pattern, v.replace("\n", "n")) is not None


def is_text(v):
    return isinstance(v, str)


def is_object(v):
    return isinstance(v, dict)


def is_null(v):
    return v is None


def among(words):
    return lambda v: isinstance(v, str) and v in words


def array(rule):
    return lambda v: isinstance(v, list) and all(rule(x) for x in v)


def nullable(rule):
    return lambda v: v is None or rule(v)


def record(rules, required=()):
    """An object with these keys, each with its rule where it is there."""
    return lambda v: (
        isinstance(v, dict) and all(k in v for k in required) and all(rule(v[k]) for k, rule in rules.items() if k in v)
    )


def is_time(v):
    if not isinstance(v, str) or not re.fullmatch(TIME, v, re.ASCII):
        return False
    try:
        if v[17:19] == "60":
            moment = datetime.datetime.fromisoformat(v[:17] + "59")
            return v[11:16] == "23:59" and (moment + datetime.timedelta(days=1)).day == 1
        datetime.datetime.fromisoformat(v[:19])
        return True
    except ValueError:
        return False


def is_severity(v):
    return (
        isinstance(v, dict) and isinstance(v.get("type"), str) and v["type"] in SCORES and matches(SCORES[v["type"]])(v.get("score"))
    )


def is_event(v):
    return isinstance(v, dict) and len([k for k in EVENTS if k in v]) == 1 and all(isinstance(v[k], str) for k in EVENTS if k in v)


def are_events(v):
    if not array(is_event)(v):
        return False
    kinds = {k for e in v for k in e}
    return "introduced" in kinds and not {"fixed", "last_affected"} <= kinds


def is_range(v):
    rule = record(
        {"type": among(("GIT", "SEMVER", "ECOSYSTEM")), "events": are_events, "repo": is_text, "database_specific": is_object},
        ("type", "events"),
    )
    return rule(v) and (v["type"] != "GIT" or "repo" in v)


SEVERITIES = nullable(array(is_severity))
PACKAGE = record({"ecosystem": matches(ECOSYSTEM), "name": is_text, "purl": is_text}, ("ecosystem", "name"))
AFFECTED = record({
    "package": PACKAGE,
    "severity": SEVERITIES,
    "ranges": array(is_range),
    "versions": array(is_text),
    "ecosystem_specific": is_object,
    "database_specific": is_object,
})
REFERENCE = record({"type": among(REFERENCES), "url": is_text}, ("type", "url"))
CREDIT = record({"name": is_text, "contact": array(is_text), "type": among(CREDITS)}, ("name",))
TEXTS = nullable(array(is_text))
KEYS = {
    "schema_version": is_text,
    "id": matches(PREFIX),
    "modified": is_time,
    "published": is_time,
    "withdrawn": is_time,
    "aliases": TEXTS,
    "related": TEXTS,
    "upstream": TEXTS,
    "summary": lambda v: isinstance(v, str) and not set(v) & {"\n", "\r"},
    "details": is_text,
    "severity": SEVERITIES,
    "affected": nullable(array(AFFECTED)),
    "references": nullable(array(REFERENCE)),
    "credits": array(CREDIT),
    "database_specific": is_object,
}


def keeps(d):
    """Whether a document keeps the schema."""
    if not record(KEYS, ("id", "modified"))(d) or set(d) - set(KEYS):
        return False
    return "severity" not in d or all(a.get("severity") is None for a in d.get("affected") or [])


# ---- documents

def score(r, kind):
    if kind == "Ubuntu":
        return r.choice(["low", "high", "medium"])
    if kind == "CVSS_V2":
        return "/".join(r.choice(["AV:N", "AC:L", "Au:N", "C:P", "I:N", "A:C", "E:POC", "TD:ND", "CR:H"]) for _ in range(r.randint(1, 6)))
    if kind == "CVSS_V3":
        metrics = ["AV:N", "AC:H", "PR:L", "UI:R", "S:C", "C:H", "I:N", "A:L", "E:X", "RL:O", "MPR:X", "MA:H"]
        return f"CVSS:3.{r.randint(0, 1)}/" + "/".join(r.sample(metrics, r.randint(1, 8)))
    rest = ["/E:A", "/CR:H", "/MAV:X", "/MSI:S", "/S:P", "/AU:Y", "/RE:L", "/U:Red"]
    return "CVSS:4.0/AV:N/AC:L/AT:N/PR:N/UI:N/VC:H/VI:L/VA:N/SC:N/SI:H/SA:L" + "".join(m for m in rest if r.random() < 0.3)


def severity(r):
    kind = r.choice(list(SCORES))
    return {"type": kind, "score": score(r, kind)}


def time(r):
    text = f"{r.randint(1, 9999):04}-{r.randint(1, 12):02}-{r.randint(1, 28):02}T{r.randint(0, 23):02}:{r.randint(0, 59):02}:{r.randint(0, 59):02}"
    return r.choice([text + "Z", text + f".{r.randint(0, 999)}Z", "2016-12-31T23:59:60Z", "2024-02-29T00:00:00Z"])


def events(r):
    end = r.choice(["fixed", "last_affected", "limit"])
    return [{"introduced": r.choice(["0", "1.0.0"])}] + [{end: "2.0.0"} for _ in range(r.randint(0, 2))]


def range_of(r):
    kind = r.choice(["SEMVER", "ECOSYSTEM", "GIT"])
    made = {"type": kind, "events": events(r)}
    if kind == "GIT" or r.random() < 0.2:
        made["repo"] = "https://a/"
    if r.random() < 0.2:
        made["database_specific"] = {"a": [1, None]}
    return made


def some(r, make, most=2):
    return [make(r) for _ in range(r.randint(0, most))]


def member(r):
    made = {"package": {"ecosystem": r.choice(["crates.io", "Debian:11", "npm", "Red Hat:x:y"]), "name": r.choice(["base", "a b", ""])}}
    if r.random() < 0.5:
        made["package"]["purl"] = "pkg:cargo/base"
    for key, make in (("ranges", lambda: some(r, range_of)), ("versions", lambda: some(r, lambda r: "1.0.0")),
                      ("ecosystem_specific", dict), ("database_specific", lambda: {"x": 1})):
        if r.random() < 0.5:
            made[key] = make()
    if r.random() < 0.1:
        del made["package"]
    return made


def document(r):
    """A document that keeps the schema."""
    made = {"id": r.choice(["RUSTSEC-2021-0001", "CVE-", "GHSA-x", "openSUSE-SU-2021:1", "V8-1"]), "modified": time(r)}
    texts = lambda: r.choice([None, some(r, lambda r: r.choice(["CVE-1", "", "é"]), 3)])
    optional = {
        "schema_version": lambda: "1.7.0", "published": lambda: time(r), "withdrawn": lambda: time(r), "aliases": texts,
        "related": texts, "upstream": texts, "summary": lambda: r.choice(["one line", ""]), "details": lambda: "two\nlines",
        "affected": lambda: r.choice([None, some(r, member, 3)]),
        "references": lambda: r.choice([None, some(r, lambda r: {"type": r.choice(REFERENCES), "url": "https://a/"}, 3)]),
        "credits": lambda: some(r, lambda r: {"name": "A", "contact": ["x"], "type": r.choice(CREDITS)}),
        "database_specific": lambda: {"license": "CC0-1.0", "a": None},
    }
    for key, make in optional.items():
        if r.random() < 0.6:
            made[key] = make()
    if r.random() < 0.5:
        made["severity"] = r.choice([None, some(r, severity)])
    else:
        for a in made.get("affected") or []:
            if r.random() < 0.5:
                a["severity"] = r.choice([None, some(r, severity)])
    return made


ODD = [None, True, 0, 1.5, "", "x", "RUSTSEC", "2021-02-30T00:00:00Z", "2021-02-03T04:05:06", "a\nb", [], {}, [1], ["x"], {"x": 1}, "0" * 40]


def places(value, found):
    """Each object and list inside a value, with its keys or indices."""
    keys = list(value) if isinstance(value, dict) else range(len(value)) if isinstance(value, list) else ()
    for key in keys:
        found.append((value, key))
        places(value[key], found)
    return found


def change_text(r, text):
    at = r.randrange(len(text) + 1)
    return r.choice([text[:at] + r.choice("x/:-Z0.") + text[at:], text[:at] + text[at + 1:], text.lower(), text + text])


def broken(r):
    """A document with one place changed: taken away, replaced, altered or doubled."""
    made = copy.deepcopy(document(r))
    holder, key = r.choice(places(made, []))
    way = r.random()
    if way < 0.25:
        del holder[key]
    elif way < 0.6 or not isinstance(holder[key], str):
        holder[key] = copy.deepcopy(r.choice(ODD))
    else:
        holder[key] = change_text(r, holder[key])
    if r.random() < 0.2 and isinstance(holder, dict):
        holder[r.choice(["other", "severity", "fixed", "last_affected", "introduced", "type", "events"])] = copy.deepcopy(r.choice(ODD + [[]]))
    return made

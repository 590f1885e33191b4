"""What `check --format json` and `check-many` must answer: the rules of docs/DEFINITIONS.md, written a second time,
with a search of its own for paths and for least free versions. checks.py makes the advisories, packages and words."""
import json
import re

import databases
import rules

REGISTRY = databases.REGISTRY
SPARSE = "sparse+https://index.crates.io/"
DEFAULT_REGISTRIES = (REGISTRY, SPARSE)
SEVERITIES = ["none", "low", "medium", "high", "critical"]
KINDS = ["notice", "unmaintained", "unsound"]
UNKNOWN = "`{}` at `informational_warnings` is not a kind that gives warnings"
ELSEWHERE = "some packages are not from the default registry, and are not audited"
SPARSE_NOTE = ("some packages are from the sparse index of the default registry, which advisories without a source do not "
               "match")
NO_DATABASE = "the database is read from its folder as it is"
NO_REGISTRY = "no registry is asked which versions are yanked"
NETWORK = {
    (True, False): f"[database] asks for the network, which is not used: {NO_DATABASE}",
    (False, True): f"[yanked] asks for the network, which is not used: {NO_REGISTRY}",
    (True, True): f"[database] and [yanked] ask for the network, which is not used: {NO_DATABASE}, and {NO_REGISTRY}",
}
SOURCE = '`source = "{}"` in [packages] is not followed: only packages of the default registry are checked'
IDLE = "keys without effect here: "
YANKED_WORD = "`--deny yanked` denies nothing without an index: no package is looked up"
YANKED = "`yanked` at `deny` in [output] denies nothing without an index: no package is looked up"


# ---- paths


def texts_of(package, is_old):
    """The texts by which an entry may name a package."""
    texts = {package.name, f"{package.name} {package.version}"}
    if package.source:
        short = package.source.rpartition("#")[0] or package.source
        for source in [package.source, short] + ([re.sub(r"\?branch=master$", "", short)] if is_old else []):
            texts.add(f"{package.name} {package.version} ({source})")
    return texts


def named(entry, packages, texts):
    """The place of the package that an entry names, in a list; an empty list if there is none."""
    fitting = [i for i in range(len(packages)) if entry in texts[i]]
    local = [i for i in fitting if not packages[i].source]
    releases = {(packages[i].name, packages[i].version) for i in fitting}
    return fitting if len(fitting) == 1 else local if len(local) == len(releases) == 1 else []


def edges_of(packages, is_old):
    """For each package the places that its entries name."""
    texts = [texts_of(package, is_old) for package in packages]
    return [[i for entry in package.all_entries() for i in named(entry, packages, texts)] for package in packages]


def path_to(packages, edges, target):
    """The first of the shortest paths from a root: all paths of each length are made, in order."""
    needed = {to for at, places in enumerate(edges) for to in places if to != at}
    roots = [i for i, p in enumerate(packages) if not p.source or i not in needed]
    paths = sorted([i] for i in roots)
    for _ in packages:
        found = [path for path in paths if path[-1] == target]
        if found:
            return min(found)
        paths = sorted(path + [to] for path in paths for to in set(edges[path[-1]]) if to not in path)
    return None


# ---- least free versions


def least_free(advisories, version):
    """The least version from this one on that none of the advisories affects: the version itself, or a place where an
    interval begins."""
    if not any(a.affects(version) for a in advisories):
        return version
    cuts = []
    for advisory in advisories:
        for interval, _ in advisory.intervals:
            if interval.start:
                cuts.append(interval.start[0] if interval.start[1] else interval.start[0].successor())
    free = [c for c in cuts if version.key <= c.key and not any(a.affects(c) for a in advisories)]
    return min(free, key=lambda v: v.key) if free else None


def borders(advisories):
    """Where the intervals of advisories begin, and the first versions above them."""
    found = []
    for advisory in advisories:
        for interval, _ in advisory.intervals:
            if interval.start:
                found.append(interval.start[0] if interval.start[1] else interval.start[0].successor())
            if interval.end:
                found.append(interval.end[0].successor() if interval.end[1] else interval.end[0])
    return [v for v in found if v is not None]


def movers(counting, own, version, free, ignored):
    """The ignored advisories that affect a version, from this one to below the answer, that none in force affects. All
    versions between two borders are affected alike, so these are tried."""
    in_force = [a for a in counting if a.id not in ignored] + [own]
    tried = [version] + [v for v in borders(counting + [own]) if version.key <= v.key]
    between = [v for v in tried if free is None or v.key < free.key]
    bare = [v for v in between if not any(a.affects(v) for a in in_force)]
    return [a.id for a in counting if a.id in ignored and any(a.affects(v) for v in bare)]


def is_compatible(version, free):
    caret = rules.Interval([("^", list(version.numbers), version.pre)])
    return free is not None and caret.holds(free)


# ---- pairs


def is_about(advisory, package):
    """Whether an advisory is about a package of a default registry: its name, its source, its collection."""
    wanted = advisory.source or REGISTRY
    return (package.source in DEFAULT_REGISTRIES and package.source == wanted and advisory.package == package.name
            and advisory.collection == "crates" and not advisory.withdrawn)


def is_severe(advisory, least):
    severity = advisory.vector and advisory.vector[2]
    return not least or not severity or SEVERITIES.index(severity) >= SEVERITIES.index(least)


def on_platforms(advisory, asked):
    arches, systems = asked.arch + asked.words_arch, asked.systems + asked.words_systems
    of_arch = not arches or not advisory.arch or set(arches) & set(advisory.arch)
    return of_arch and (not systems or not advisory.systems or set(systems) & set(advisory.systems))


def kind_of(advisory, asked):
    """The kind of the finding that an advisory gives, or none."""
    if not advisory.informational:
        return "vulnerability"
    is_wanted = asked.warnings is None or advisory.informational in asked.warnings
    return advisory.informational if is_wanted and advisory.informational in KINDS else None


def pairs(advisories, packages, asked, least):
    """The pairs of a kind, a place and an advisory that are listed, ignored ones too: package by package, of each the
    vulnerabilities and then the warnings."""
    out = []
    for place, package in enumerate(packages):
        version = rules.version_of(package.version)
        hits = [a for a in advisories if is_about(a, package) and a.affects(version) and is_severe(a, least)
                and on_platforms(a, asked) and kind_of(a, asked)]
        out += [("vulnerability", place, a) for a in hits if not a.informational]
        out += [(kind_of(a, asked), place, a) for a in hits if a.informational]
    return out


# ---- the answer


def update_of(advisories, package, advisory, ignored):
    version = rules.version_of(package.version)
    counting = [a for a in advisories if is_about(a, package) and not a.informational]
    free = least_free(counting + [advisory], version)
    command = ["cargo", "update", f"{package.source}#{package.name}@{package.version}"]
    moved = movers(counting, advisory, version, free, ignored)
    return {"least-free": str(free) if free else None, "compatible": is_compatible(version, free), "ignored": moved,
            "command": command}


def printed(requirements):
    """Requirements as they are printed: without a space after an operator."""
    return [re.sub("([<>=]) ", r"\1", requirement) for requirement in requirements]


def advisory_tree(advisory):
    vector, score, severity = advisory.vector or (None, None, None)
    return {"id": advisory.id, "title": advisory.title, "date": advisory.date, "url": advisory.url, "cvss": vector,
            "severity": severity, "score": score, "aliases": advisory.aliases}


def finding_tree(case, packages, edges, kind, place, advisory):
    package, path = packages[place], path_to(packages, edges, place)
    return {
        "kind": kind, "denied": case.asked.denies(kind),
        "old": case.baseline is not None and any(package.same(p) for p in case.baseline),
        "advisory": advisory_tree(advisory), "package": package.tree(),
        "versions": {"patched": printed(advisory.patched), "unaffected": printed(advisory.unaffected)},
        "path": None if path is None else [packages[i].short() for i in path],
        "dependents": [packages[i].short() for i in range(len(packages)) if place in edges[i]],
        "update": update_of(case.advisories, package, advisory, case.asked.ignored()),
    }


def ignored_tree(case, package, kind, advisory):
    found = [entry for entry in case.asked.entries_today() if entry[0] == advisory.id]
    _, reason, until = found[0] if found else (None, None, None)
    return {"kind": kind, "advisory": advisory.id, "package": package.tree(), "reason": reason, "until": until}


def notes_of_policy(asked):
    """The notes on the policy: on the network, on sources and yanked packages that it asks in vain, on keys without effect."""
    database, yanked = asked.database, asked.yanked
    network = (database.get("fetch", "url" in database), yanked.get("enabled", yanked.get("update_index", False)))
    idle = [f"`{key}` in [output]" for key in asked.shown]
    idle += [f"`{key}` in [database]" for key in database if key in ("path", "stale")]
    notes = [NETWORK[network]] if any(network) else []
    notes += [SOURCE.format(asked.source)] if asked.source in ("all", "local") else []
    notes += [YANKED] if "yanked" in asked.denied else []
    return notes + ([IDLE + ", ".join(idle)] if idle else [])


def notes_of(case, packages, is_old):
    """The notes on the policy; what is empty, whether no advisory without a source can match some packages, and which
    entries name no package, or several."""
    notes = notes_of_policy(case.asked)
    notes += [YANKED_WORD] if "yanked" in case.asked.words_denied else []
    notes += [UNKNOWN.format(kind) for kind in case.asked.warnings or [] if kind not in KINDS]
    notes += [] if case.advisories else ["the database has no advisory"]
    notes += [] if packages else ["the lockfile has no package"]
    elsewhere = any(package.source and package.source not in DEFAULT_REGISTRIES for package in packages)
    notes += [ELSEWHERE] if elsewhere else []
    notes += [SPARSE_NOTE] if any(package.source == SPARSE for package in packages) else []
    texts = [texts_of(package, is_old) for package in packages]
    for package in packages:
        for entry in package.all_entries():
            if not named(entry, packages, texts):
                notes.append(f"{package.name} {package.version}: dependency `{entry}` names no package, or several")
    return notes


def check(case, lockfile):
    """The answer for a lockfile, and the status."""
    packages, ignored = lockfile.packages, case.asked.ignored()
    edges, known = edges_of(packages, lockfile.is_old), {a.id for a in case.advisories}
    listed = pairs(case.advisories, packages, case.asked, case.asked.least())
    findings = [finding_tree(case, packages, edges, *pair) for pair in listed if pair[2].id not in ignored]
    passed = [ignored_tree(case, packages[place], kind, a) for kind, place, a in listed if a.id in ignored]
    used = {p["advisory"] for p in passed}
    everything = [p for p in pairs(case.advisories, packages, case.asked, None) if p[2].id not in ignored]
    tree = {
        "database": {"advisory-count": len(case.advisories),
                     "last-date": max((a.date for a in case.advisories), default=None)},
        "lockfile": {"dependency-count": len(packages)}, "findings": findings, "ignored": passed,
        "unused-ignores": [i for i in ignored if i in known and i not in used],
        "unknown-ignores": [i for i in ignored if i not in known],
        "below-threshold": len(everything) - len(findings), "notes": notes_of(case, packages, lockfile.is_old),
        "yanked": None,
    }
    return tree, 1 if any(f["denied"] and not f["old"] for f in findings) else 0


def answer_for(case, lockfile):
    """The answer for a lockfile, or the kind of its refusal; and the status."""
    if lockfile.refused:
        return lockfile.refused, 2
    if case.is_baseline_missing:
        return "I/O operation failed", 2
    if not case.asked.allows_empty and not (case.advisories and lockfile.packages):
        return "not found", 2
    return check(case, lockfile)


def line_of(tree):
    """A tree on a line, its keys in the order of their bytes."""
    return json.dumps(tree, sort_keys=True, separators=(",", ":"), ensure_ascii=False) + "\n"


def answer(case):
    """What `check` must write, and the status."""
    found, status = (case.refused, 2) if case.refused else answer_for(case, case.lockfile)
    return (f"refused: {found}\n" if status == 2 else line_of(found)).encode(), status


def many_answer(case, lockfiles):
    """What `check-many` must write for some paths and lockfiles, and the status."""
    if case.refused:
        return f"refused: {case.refused}\n".encode(), 2
    text, worst = "", 0
    for path, lockfile in lockfiles:
        found, status = answer_for(case, lockfile)
        text += line_of({"lockfile": path, "refused" if status == 2 else "check": found})
        worst = max(worst, status)
    return text.encode(), worst

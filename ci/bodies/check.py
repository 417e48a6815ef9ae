"""Tries the wrong bodies of the must-fail edits, and judges each by the verdict on its own function.

    python3 ci/bodies/check.py [--new] CRATE..
    python3 ci/bodies/check.py --list

An edit is applied as a whole to a clone of what is committed, and `rt check` gives a verdict on each function: a function's
proof rests on its own body and on the contracts of what it calls, so the verdict is on its body alone. A body is refused
by its contract if a clause, an invariant or a loop's invariant of its function isn't proved. Exception: a proof by hand that names
what the edit took away, or that no longer fits by type, says little of the contract. Such a body is not judged, and counts as
not refused.
"""

import hashlib
import os
import re
import shutil
import subprocess
import sys
import tempfile
from dataclasses import dataclass, field
from fnmatch import fnmatchcase
from pathlib import Path

TOP = Path(__file__).resolve().parents[2]
REFUSED = Path(__file__).parent / "refused.txt"
FUNCTION = re.compile(r"^\s*(?:pub(?:\([a-z]+\))? +)?(?:const +|unsafe +|ghost +)*(?:extern +\"C\" +)?fn +(\w+)")
IMPL = re.compile(r"^impl(?:<(?:[^<>]|<[^<>]*>)*>)? +(?:(?P<trait>[\w:<>(), ']+) +for +)?&?(?:'\w+ +)?(?P<type>\w+)")
VERDICT = re.compile(r"^fn (?P<name>[\w:+]+): (?P<verdict>.*)$")
GOAL = re.compile(r"^\./proofs/(?P<place>[\w/+]+)/\w+\.antt:\d+:\d+: error: (?P<what>.*)$")
TAKEN_AWAY = re.compile(r"has no field|is not in scope|has no `|was not admitted|that can be named from here|the two types|expected type|has type")
CONTRACT = "refused by its contract"
NAMES = "not judged: a proof by hand names what the edit took away, or no longer fits by type"
# how bodies are judged; those that an earlier rule judged are named by --list
RULE = "2"
UNREADABLE = re.compile(r"\berror\[[\w-]+\]|^\S+\.rt:\d+:\d+: error")


@dataclass
class Body:
    """A wrong body: its file and name, and the functions that it changes, as module, type and name; no name outside functions."""

    key: tuple
    functions: set = field(default_factory=set)

    def is_outside(self):
        """Whether it changes something outside functions, such as a constant."""
        return all(name is None for _, _, name in self.functions)

    def is_judged_by(self, parts):
        """Whether a verdict or a goal with these parts of its place is on a function of this body."""
        return any(is_of(parts, function) for function in self.functions)


def pairs_of(edit):
    """An edit's pairs: file, body, old and new text."""
    file = body = old = None
    for line in edit.read_text().splitlines():
        word, _, rest = line.partition(":")
        rest = rest.removeprefix(" ")
        if word == "file":
            file, body = rest.strip(), None
        elif word == "body":
            body = rest.strip()
        elif word == "old":
            old = rest
        elif word == "new":
            yield file, body or old.strip(), old, rest


def kind_of(impl):
    """The name that a check gives an impl: its type, then the trait and the first of the trait's arguments."""
    name = impl.group("type")
    if not impl.group("trait"):
        return name
    words = re.findall(r"\w+", re.sub(r"\w+::", "", impl.group("trait")))
    several = "*" if len(words) > 2 else ""
    return "".join(word[0].upper() + word[1:] for word in [name, *words[:2]]) + several


def function_at(text, place, file):
    """The function around a place of a file: its module, its type or nothing, and its name."""
    name = kind = None
    for line in reversed(text[: text.index("\n", place)].split("\n")):
        found = FUNCTION.match(line)
        if not name and found:
            name = found.group(1)
            if not line.startswith((" ", "\t")):
                break
        elif name and IMPL.match(line):
            kind = kind_of(IMPL.match(line))
            break
    module = "::".join(part for part in Path(file).with_suffix("").parts[1:] if part != "lib")
    return module, kind, name


def apply(edit, folder, only=None):
    """Applies an edit's bodies to a crate's folder, or those with these files and names, and gives them."""
    bodies = {}
    for file, name, old, new in pairs_of(edit):
        if only and (file, name) not in only:
            continue
        path = folder / file
        text = path.read_text()
        if text.count(old) != 1:
            raise SystemExit(f"bodies: {edit}: found {text.count(old)} times: {old}")
        place = text.index(old)
        path.write_text(text.replace(old, new))
        bodies.setdefault((file, name), Body((file, name))).functions.add(function_at(text, place, file))
    return list(bodies.values())


def is_of(parts, function):
    """Whether the parts of a verdict's or a proof's place are of a function, or of a closure in it; a method's module is its type's."""
    module, kind, name = function
    if kind:
        own = next((place for place, part in enumerate(parts) if fnmatchcase(part, kind)), len(parts))
        return name in parts[own:]
    head = module.split("::") if module else []
    return parts[: len(head)] == head and name in parts[len(head) :]


def judged(bodies, printed):
    """For each body what a check says of it: `CONTRACT`, `NAMES`, or nothing where it isn't refused."""
    goals, searched = [], []
    for line in printed.splitlines():
        goal, verdict = GOAL.match(line), VERDICT.match(line)
        if goal:
            goals.append((re.split(r"[/+]", goal.group("place")), goal.group("what")))
        elif verdict and "did not prove" in verdict.group("verdict"):
            searched.append(re.split(r"::|\+", verdict.group("name"))[1:])
    for body in bodies:
        judges = body.is_judged_by
        if len(bodies) == 1 and body.is_outside():
            judges = bool  # all that isn't proved hangs on it
        own = [what for parts, what in goals if judges(parts)]
        if any(map(judges, searched)) or any(not TAKEN_AWAY.search(what) for what in own):
            yield body, CONTRACT
        else:
            yield body, NAMES if own else ""


def sum_of_crate(crate):
    """A checksum of a crate's sources, specs and proofs."""
    found = hashlib.sha256()
    for part in ("src", "specs", "proofs"):
        for path in sorted((TOP / "crates" / crate / part).rglob("*")):
            found.update(path.read_bytes() if path.is_file() else b"")
    return found.hexdigest()[:16]


def sums_of_bodies(edit):
    """A checksum of each body of an edit, by its file and name."""
    texts = {}
    for file, name, old, new in pairs_of(edit):
        texts.setdefault((file, name), []).append(f"{file}\n{name}\n{old}\n{new}\n")
    return {key: hashlib.sha256("".join(parts).encode()).hexdigest()[:8] for key, parts in texts.items()}


def edits_of(crate):
    """A crate's edits."""
    return sorted((TOP / "crates" / crate / "must-fail").glob("*.edit"))


def kept_lines():
    """What refused.txt says of each crate: the rule of the last run, the crate's checksum then, and the checksums of the bodies that
    were refused by their contracts."""
    lines = [line.split() for line in REFUSED.read_text().splitlines()] if REFUSED.exists() else []
    return {crate: (rule, crate_sum, set(sums)) for crate, rule, crate_sum, *sums in lines}


def keep(crate, sums, is_whole):
    """Notes bodies that were refused by their contracts; with those that were noted before unless the run was of all."""
    lines = kept_lines()
    rule, crate_sum, others = lines.get(crate, (RULE, sum_of_crate(crate), set()))
    present = {found for edit in edits_of(crate) for found in sums_of_bodies(edit).values() if len(sums_of_bodies(edit)) > 1}
    if is_whole:
        rule, crate_sum, others = RULE, sum_of_crate(crate), set()
    lines[crate] = (rule, crate_sum, (others | sums) & present)
    REFUSED.write_text("".join(f"{name} {rule} {found} {' '.join(sorted(sums))}\n" for name, (rule, found, sums) in sorted(lines.items())))


def checked(folder):
    """What a check of a crate prints."""
    return subprocess.run(["rt", "check", "--jobs", "1"], cwd=folder, stdout=subprocess.PIPE, stderr=subprocess.STDOUT, text=True).stdout


def try_bodies(crate, edit, clone, only=None):
    """The bodies of an edit, or those with these files and names, each with what a check says of it; nothing where it gives no verdict."""
    folder = clone / "crates" / crate
    bodies = apply(edit, folder, only)
    printed = checked(folder)
    subprocess.run(["git", "checkout", "-q", "."], cwd=clone, check=True)
    if UNREADABLE.search(printed) or "logic=" not in printed:
        print(f"{crate}/{edit.stem}: no verdict: {printed[-400:]}")
        return []
    return list(judged(bodies, printed))


def try_edit(crate, edit, clone, only=None):
    """Tries an edit, or some of its bodies, and gives the checksums of those that their contracts refuse, and how many there are. One
    that isn't refused is tried once more, alone: a proof by hand isn't looked at where it cites a function that another body
    spoils."""
    outcomes = dict((body.key, (body, verdict)) for body, verdict in try_bodies(crate, edit, clone, only))
    for body, verdict in list(outcomes.values()):
        if verdict != CONTRACT and len(outcomes) > 1:
            outcomes.update((alone.key, (alone, said)) for alone, said in try_bodies(crate, edit, clone, {body.key}))
    for (_, name), (_, verdict) in outcomes.items():
        if verdict != CONTRACT:
            print(f"{crate}/{edit.stem}: {name}: {verdict or 'not refused'}")
    refused = {key for key, (_, verdict) in outcomes.items() if verdict == CONTRACT}
    print(f"{crate}/{edit.stem}: {len(refused)} of {len(outcomes)} bodies are refused by their contracts", flush=True)
    return {found for key, found in sums_of_bodies(edit).items() if key in refused}, len(only) if only else len(sums_of_bodies(edit))


def unnoted(crate, edit):
    """The bodies of a joined edit that refused.txt doesn't name. The gate judges an edit of one body by itself."""
    sums = sums_of_bodies(edit)
    noted = kept_lines().get(crate, ("", "", set()))[2]
    return {key for key, found in sums.items() if found not in noted} if len(sums) > 1 else set()


def take_kept(crate, clone):
    """Takes over into a clone what checks here have built of all crates, as links, and what they have kept of this crate."""
    for built in (TOP / "crates").glob("*/out/rlib"):
        shutil.copytree(built, clone / built.relative_to(TOP), copy_function=os.link)
    kept = TOP / "crates" / crate / "out" / "incremental"
    if kept.is_dir():
        shutil.copytree(kept, clone / kept.relative_to(TOP))


def try_crate(crate, new_alone):
    """Tries each joined edit of a crate, or its bodies that weren't noted, over what checks here have kept."""
    joined = [edit for edit in edits_of(crate) if len(sums_of_bodies(edit)) > 1]
    tried = [(edit, unnoted(crate, edit) if new_alone else None) for edit in joined]
    if new_alone:
        tried = [(edit, only) for edit, only in tried if only]
    if not tried:
        print(f"{crate}: each body was judged")
        return True
    with tempfile.TemporaryDirectory() as scratch:
        clone = Path(scratch) / "clone"
        subprocess.run(["git", "clone", "-q", str(TOP), str(clone)], check=True)
        take_kept(crate, clone)
        if "logic=proved" not in checked(clone / "crates" / crate):
            print(f"{crate}: it isn't proved as it is")
            return False
        outcomes = [try_edit(crate, edit, clone, only) for edit, only in tried]
    refused = set().union(*(sums for sums, _ in outcomes))
    are_all = all(len(sums) == count for sums, count in outcomes)
    keep(crate, refused, is_whole=are_all and not new_alone)
    return are_all


def broken(edit, crate):
    """The first text of an edit that doesn't stand once in its file after the pairs before it, or nothing."""
    texts = {}
    for file, _, old, new in pairs_of(edit):
        text = texts.setdefault(file, (TOP / "crates" / crate / file).read_text())
        if text.count(old) != 1:
            return old
        texts[file] = text.replace(old, new)
    return None


def list_unjudged():
    """Names the joined edits with bodies that were never judged, and the edits that can't be applied: each is a failure. Names the
    crates that changed since their bodies were judged, and those whose bodies an earlier rule judged: no failure."""
    failed = 0
    for crate in sorted(path.parent.name for path in (TOP / "crates").glob("*/must-fail")):
        rule, crate_sum, _ = kept_lines().get(crate, ("", "", set()))
        for edit in edits_of(crate):
            if old := broken(edit, crate):
                failed += 1
                print(f"bodies: crates/{crate}/must-fail/{edit.name} can't be applied: {old}")
            names = sorted(name for _, name in unnoted(crate, edit))
            if names:
                failed += 1
                print(f"bodies: never judged each, crates/{crate}/must-fail/{edit.name}: {', '.join(names)}")
        if rule and rule != RULE:
            print(f"bodies: the joined bodies of {crate} were judged by an earlier rule: ci/bodies.sh {crate}")
        elif rule and crate_sum != sum_of_crate(crate):
            print(f"bodies: {crate} changed since its joined bodies were judged")
    return 1 if failed else 0


def main(words):
    if words == ["--list"]:
        return list_unjudged()
    crates = [word for word in words if word != "--new"]
    if not crates:
        print(__doc__)
        return 2
    return 0 if all([try_crate(crate, "--new" in words) for crate in crates]) else 1


if __name__ == "__main__":
    sys.exit(main(sys.argv[1:]))

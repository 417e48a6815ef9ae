"""Checks the words of the crates: words of specs with two meanings, long clauses, docstrings that can't be read alone, `where` in
place of if or when, and the names of the tests that the sweep runs.

    python3 ci/words/check.py

A finding is printed, a line each; a mistake of each kind is planted, and must be found. The last line is 'N passed, M failed'.
"""

import re
import sys
from collections import defaultdict
from pathlib import Path

from texts import COMMENT, Source, sources_of

MOST_TWINS = 20
MOST_CHARACTERS = 160
MOST_WHERE = 6  # in 1,000 words of comments
MOST_LEANING = 0  # docstrings
CLAUSE = re.compile(r"^[ \t]*((?:ensures|requires)\*?(?: \w+)?) \{", re.M)
DEFINITION = re.compile(
    r"^(?:(?:abbrev|opaque|unfoldable) +)*pub +(?P<kind>(?:data|record) +)?(?P<name>[A-Za-z_][\w'-]*)(?P<type>[^\n]*(?:\n[ \t][^\n]*)*)", re.M
)
LEANING = re.compile(r"(?:The same|So)\b(?! many)")
SWEPT = re.compile(r"^[ \t]*sweep_(?:test|steady) +(?P<crate>[a-z]\w*) +(?P<tests>\w+::[\w: ]*)$", re.M)


def twins(texts):
    """The words of specs with two types or more, from the texts of the files by their places."""
    types, places = defaultdict(set), defaultdict(list)
    for place, text in texts.items():
        for match in DEFINITION.finditer(re.sub(COMMENT[".antt"], "", text)):
            if match.group("name") not in ("mod", "use", "open", "abbrev", "unfoldable"):
                body = match.group("type") if match.group("kind") else match.group("type").split("\n" + match.group("name"))[0]
                types[match.group("name")].add(re.sub(r"\s+", " ", f"{match.group('kind')} {body}"))
                places[match.group("name")].append(place)
    return {name: places[name] for name, found in types.items() if len(found) > 1}


def long_clauses(source):
    """The clauses of a file with too many characters; a clause is on one line or several, and spaces count as one."""
    for match in CLAUSE.finditer(source.text) if source.kind == ".rt" else []:
        depth, end = 1, match.end()
        while depth:
            depth += (source.text[end] == "{") - (source.text[end] == "}")
            end += 1
        clause = re.sub(r"\s+", " ", source.text[match.end():end - 1]).strip()
        if len(clause) > MOST_CHARACTERS:
            line = source.text[:match.start()].count("\n") + 1
            yield f"{source.place}:{line}: a clause of {len(clause)} characters: {match.group(1)} {clause}"


def leaning(source):
    """The docstrings of a file that begin with "The same" or "So": they can't be read without the one before."""
    for comment in source.comments() if source.kind == ".rt" else []:
        if LEANING.match(comment):
            yield f"{source.place}: {comment[:80]}"


def where_in_a_thousand(comments):
    """How often a thousand words of these comments are `where`."""
    words = [word for comment in comments for word in comment.split()]
    return 1000 * sum(re.fullmatch(r"where\W?", word, re.I) is not None for word in words) / max(len(words), 1)


def lost_tests(sweep, top):
    """The tests that the sweep names and that no function in that module of that crate is."""
    named = [(match["crate"], test) for match in SWEPT.finditer(sweep) for test in match["tests"].split() if not test.isdigit()]
    for crate, test in named:
        module, _, name = test.rpartition("::")
        path = top / "crates" / crate / "src" / (module.replace("::", "/") + ".rt")
        if not path.is_file() or not re.search(rf"^fn {name}\(", path.read_text(), re.M):
            yield f"ci/sweep.sh: {crate} has no test {test}"
    if not named:
        yield "ci/sweep.sh: no test is named"


def found_in(top):
    """What the checks find: a list for each, empty where it passes."""
    sources = list(sources_of(top))
    found = twins({source.place: source.text for source in sources if source.is_spec()})
    lines = [f"{name} has {len(places)} meanings: {', '.join(map(str, places))}" for name, places in sorted(found.items())]
    yield lines if len(found) > MOST_TWINS else []
    for crate in sorted({source.crate for source in sources}):
        yield [finding for source in sources if source.crate == crate for finding in long_clauses(source)]
    lines = [finding for source in sources for finding in leaning(source)]
    yield lines if len(lines) > MOST_LEANING else []
    many = where_in_a_thousand([comment for source in sources for comment in source.comments()])
    yield [f"{many:.1f} of 1,000 words of comments are where"] if many > MOST_WHERE else []
    yield list(lost_tests((top / "ci/sweep.sh").read_text(), top))


def planted(top):
    """Whether each kind of mistake is found, and what looks like one isn't."""
    code = lambda text: Source(Path("hc_core/src/a.rt"), text)
    clauses = lambda text: len(list(long_clauses(code(text))))
    leans = lambda text: len(list(leaning(code(text))))
    lost = lambda text: list(lost_tests(text, top))
    most = "a" * (MOST_CHARACTERS - 2)
    yield "a word with two types", list(twins({"a": "abbrev pub f : A\nf = x\n", "b": "abbrev pub f : B\nf = y\n"})) == ["f"]
    yield "a record with two forms", list(twins({"a": "pub record R : Type 0 where\n  pub x : A\n", "b": "pub record R : Type 0 where\n  pub y : A\n"})) == ["R"]
    yield "a word with one type", not twins({"a": "abbrev pub f : A\nf = x\n", "b": "abbrev pub f : A\nf = y\n"})
    yield "a long clause", clauses(f"fn f()\n    ensures b {{ {most} + a }}\n") == 1
    yield "one of several lines", clauses(f"    requires {{ {most}\n        + a }}\n    ensures {{ a }}\n") == 1
    yield "one with a record in it", clauses(f"    ensures {{ record {{ {most} }} }}\n") == 1
    yield "a clause that is long enough", not clauses(f"    ensures {{ {most}aa }}\n{{ {most}aaa }}\n")
    yield "a comment that leans on another one", leans("/// The same of a post.\nfn f() {}\n\n/// So it is.\nfn g() {}\n") == 2
    yield "one that doesn't", not leans("/// So many bytes. The same\n/// again.\n///\n/// The same.\nfn f() {}\n")
    yield "where in comments", where_in_a_thousand(["Fails where " + "it " * 8, "wherever"]) == 1000 / 11
    yield "a test that no crate has", len(lost("sweep_test worked_lines lines::none\n")) == 1 and len(lost("sweep_test none a::b\n")) == 1
    yield "one of two steady ones", len(lost("sweep_steady worked_views steady::few_cycles steady::many\n")) == 1
    yield "no test at all", len(lost("sweep_test() {\n")) == 1


def main():
    top = Path(__file__).resolve().parents[2]
    outcomes = list(found_in(top))
    outcomes += [[] if is_found else [f"planted and not judged rightly: {mistake}"] for mistake, is_found in planted(top)]
    for findings in outcomes:
        for finding in findings:
            print(f"words: {finding}")
    passed = outcomes.count([])
    print(f"{passed} passed, {len(outcomes) - passed} failed")
    return 0 if passed == len(outcomes) else 1


if __name__ == "__main__":
    sys.exit(main())

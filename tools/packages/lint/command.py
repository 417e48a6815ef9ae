"""The command line of `tools/lint`."""

import argparse

from lint.buffers import buffer_findings
from lint.checking import fault_of
from lint.findings import Finding, remaining
from lint.keys import every_slave, stray_areas, unknown_keys
from lint.sharing import shared_tasks
from projects.asking import BUILT, Program, add_options, program_of
from projects.faults import FINDINGS, FINE
from projects.files import content_of, parted
from projects.names import Names
from projects.records import read_project
from projects.toml import Node, TomlFault, read_toml

CHECK = BUILT.parents[2] / "projectcheck/out/projectcheck"


def parsed(words: list[str]) -> argparse.Namespace:
    """The arguments; a word that is none ends the run with status 2."""
    parser = argparse.ArgumentParser(
        prog="tools/lint",
        description="Looks a project text through for what the program takes and a machine wouldn't like.",
        epilog="Status: 0 nothing found, 1 findings, 2 the input can't be read or the program failed. "
        "docs/use/TOOLS.md has the kinds, and how a text says that one is meant.",
    )
    parser.add_argument("project", help="a project text, or an input of hotline that begins with one; - for stdin")
    add_options(parser)
    parser.add_argument("--check", default=CHECK if CHECK.exists() else None, help="projectcheck, if not the built one")
    return parser.parse_args(words)


def findings_of(text: bytes, program: Program, check: Program | None) -> list[Finding]:
    """All that is found in a text."""
    try:
        document = read_toml(text)
    except TomlFault as fault:
        return [Finding(fault.line, "NotToml", str(fault))]
    found = [*unknown_keys(document), *stray_areas(document)]
    fault = fault_of(document, text, program, check)
    found += [fault] if fault else open_findings(document, text, program)
    return remaining(found, document, fault is None)


def open_findings(document: Node, text: bytes, program: Program) -> list[Finding]:
    """What is found in a text that the program opens."""
    project = read_project(document, [])
    names = Names(project)
    wrong = [Finding(fault.line, fault.kind, fault.words) for fault in names.faults]
    return [
        *wrong,
        *buffer_findings(project, {slave.get("station").value: path for path, slave in every_slave(document)}),
        *shared_tasks(project, names, program, text),
    ]


def run(words: list[str]) -> int:
    """Prints what is found, a line each."""
    arguments = parsed(words)
    text, _ = parted(content_of(arguments.project))
    check = Program(arguments.check, arguments.seconds) if arguments.check else None
    findings = findings_of(text, program_of(arguments), check)
    for finding in findings:
        print(f"{arguments.project}:{finding}")
    return FINDINGS if findings else FINE

"""The problems of a file as text, in yamllint's formats."""

from .config import ERROR, WARNING
from .report import SYNTAX, printed

_COLORS = {WARNING: 33, ERROR: 31}


def _attribute(number, text):
    return f"\x1b[{number}m{text}\x1b[0m"


def _message(problem):
    """What yamllint says of a problem: it has no rule for the fault of a text, but ends its message with the word."""
    return problem.message + (" (syntax)" if problem.rule == SYNTAX else "")


def _lines(line_of, problems, no_warnings):
    return "".join(line_of(p) for p in problems if not (no_warnings and p.level == WARNING))


def standard(name, problems, no_warnings=False):
    def line_of(p):
        line = f"  {p.line}:{p.column}".ljust(12) + p.level
        rule = "" if p.rule == SYNTAX else f"  ({p.rule})"
        return f"{line.ljust(21)}{_message(p)}{rule}\n"

    lines = _lines(line_of, problems, no_warnings)
    return lines and f"{name}\n{lines}\n"


def colored(name, problems, no_warnings=False):
    def line_of(p):
        line = f"  {_attribute(2, f'{p.line}:{p.column}')}".ljust(20) + _attribute(_COLORS[p.level], p.level)
        rule = "" if p.rule == SYNTAX else "  " + _attribute(2, f"({p.rule})")
        return f"{line.ljust(38)}{_message(p)}{rule}\n"

    lines = _lines(line_of, problems, no_warnings)
    return lines and f"{_attribute(4, name)}\n{lines}\n"


def github(name, problems, no_warnings=False):
    def line_of(p):
        rule = "" if p.rule == SYNTAX else f"[{p.rule}] "
        return f"::{p.level} file={name},line={p.line},col={p.column}::{p.line}:{p.column} {rule}{_message(p)}\n"

    lines = _lines(line_of, problems, no_warnings)
    return lines and f"::group::{name}\n{lines}::endgroup::\n\n"


FORMATS = {"parsable": printed, "standard": standard, "colored": colored, "github": github}

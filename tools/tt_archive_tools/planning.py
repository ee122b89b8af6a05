"""The command that stores a plan of a word's list."""

from __future__ import annotations

import argparse
import difflib
import re
from fractions import Fraction

from . import commands
from .errors import ToolError
from .locks import Use
from .opening import archive_of
from .replies import Planned, Refused
from .times import parse_time, show_time
from .wording import counted

_KEYWORDS = ("guarantee", "space", "uniform", "since")
#: A factor, also as it may be written by mistake.
_RATIO = re.compile(r"(?<!\S)(\d+) ?[/:] ?(\d+)(?!\S)", re.ASCII)
_NUMBER = re.compile(r"(?<!\S)(\d+(?:\.\d+)?)(?!\S)", re.ASCII)
_FORM = re.compile(r"(guarantee|space) (\d+/\d+|\d+(?:\.\d+)?)( uniform| since \S+)?\Z", re.ASCII)


def plan(options: argparse.Namespace) -> None:
    form = _form(" ".join(options.form))
    with archive_of(options, Use.CHANGES) as collection:
        replies = collection.ask_all(commands.plan(options.word, form))
        plans = [reply for reply in replies if isinstance(reply, Planned)]
        if not plans:
            refusal = replies[0].meaning if isinstance(replies[0], Refused) else replies[0]
            raise ToolError(f"no plan of {options.word!r}: {refusal}")
    for planned in plans:
        cost = "" if planned.cost is None else f", expected cost {planned.cost}"
        print(
            f"{counted(planned.segments, 'segment')} of {counted(planned.space, 'posting')} in all; "
            f"the list has {planned.full} before {show_time(planned.horizon)}{cost}"
        )
    refused = [reply for reply in replies if isinstance(reply, Refused)]
    if refused:
        print(f"{counted(len(refused), 'shard')} without a plan: {refused[0].meaning}")


def _form(words: str) -> str:
    """The form as a script has it: the factor as A/B, the time in seconds."""
    match = _FORM.match(words)
    if not match or (match[1] == "space") != bool(match[3]):
        raise ToolError(f"a plan is `guarantee A/B`, `space A/B uniform` or `space A/B since TIME`{_guess(words)}")
    kind, factor, load = match.groups("")
    over, under = factor_of(factor)
    if load.startswith(" since "):
        load = f" since {parse_time(load.removeprefix(' since '))}"
    return f"{kind} {over}/{under}{load}"


def factor_of(factor: str) -> tuple[int, int]:
    """A factor as a script has it; 1.5 is 3/2."""
    try:
        ratio = factor if "/" in factor else "%d/%d" % Fraction(factor).as_integer_ratio()
        over, under = map(int, ratio.split("/"))
    except ValueError as error:
        raise ToolError(f"{factor!r} is no factor: {error}") from None
    if not 1 <= under <= over < 1 << 32:
        raise ToolError(f"{factor!r} is no factor: it is 1 or more, A/B with A and B below 2^32")
    return over, under


def _guess(words: str) -> str:
    """What was probably meant, where a factor shows it."""
    factor = _RATIO.search(words) or _NUMBER.search(words)
    if not factor:
        return ""
    ratio = "/".join(factor.groups())
    rest = (words[: factor.start()] + words[factor.end() :]).split()
    known = {keyword for word in rest for keyword in difflib.get_close_matches(word.lower(), _KEYWORDS, n=1)}
    time = next(filter(_is_time, rest), "TIME")
    uniform, since = f"`space {ratio} uniform`", f"`space {ratio} since {time}`"
    if "uniform" in known:
        meant = uniform
    elif "since" in known or time != "TIME":
        meant = since
    else:
        meant = f"{uniform} or {since}" if "space" in known else f"`guarantee {ratio}`"
    return f"; did you mean {meant}?"


def _is_time(word: str) -> bool:
    try:
        parse_time(word)
    except ToolError:
        return False
    return True

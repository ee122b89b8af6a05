"""Completions for bash, made of the command line of `tt`."""

from __future__ import annotations

import argparse

from tt_archive_tools.cli import parser

from .manuals import commands_of

_TEMPLATE = """# Completions of tt for bash, made by tools/install of the command line itself.
_tt() {{
    local current=${{COMP_WORDS[COMP_CWORD]}} before=${{COMP_WORDS[COMP_CWORD - 1]}} path= at word
    for ((at = 1; at < COMP_CWORD; at++)); do
        word=${{COMP_WORDS[at]}}
        case $word in
            {valued}) ((at++)) ;;
            *) case "$path $word" in {paths}) path="$path $word" ;; esac ;;
        esac
    done
    case $before in
        {folders}) COMPREPLY=($(compgen -d -- "$current")); return ;;
        {valued}) COMPREPLY=($(compgen -f -- "$current")); return ;;
    esac
    case $path in
{cases}
    esac
}}
complete -o filenames -F _tt tt
"""


def completions() -> str:
    found = list(commands_of(parser()))
    paths = {"": _words(found[0][1])}
    for words, command in found[1:]:
        parts = words.split(" ")
        for count in range(1, len(parts)):
            above = paths.setdefault(" " + " ".join(parts[:count]), [])
            above += [parts[count]] if parts[count] not in above else []
        paths[f" {words}"] = _words(command)
    actions = [action for _, command in found for action in command._actions if action.option_strings and action.nargs != 0]
    valued = sorted({name for action in actions for name in action.option_strings})
    cases = "\n".join(f'        "{path}") {_reply(words)} ;;' for path, words in paths.items())
    return _TEMPLATE.format(
        valued="|".join(valued),
        folders="-C|--archive",
        paths="|".join(f'"{path}"' for path in paths if path),
        cases=cases,
    )


def _words(command: argparse.ArgumentParser) -> list[str]:
    words = [name for action in command._actions for name in action.option_strings]
    for action in command._actions:
        if isinstance(action, argparse._SubParsersAction):
            words += list(action.choices)
    return words


def _reply(words: list[str]) -> str:
    return f'COMPREPLY=($(compgen -W "{" ".join(words)}" -- "$current") $([[ $current == -* ]] || compgen -f -- "$current"))'

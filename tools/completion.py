"""Makes the completion of commands for shells, out of the commands as they are read."""
from __future__ import annotations

import argparse
import shlex
import typing

# The shells, each with what stands in front of the script for it.
SHELLS = {"bash": "", "zsh": "autoload -U +X bashcompinit && bashcompinit\n"}
SCRIPT = """{front}_workbook() {{
    local command=${{COMP_WORDS[1]}} word=${{COMP_WORDS[COMP_CWORD]}} at option known
    for ((at = COMP_CWORD - 1; at > 1; at--)); do
        option=${{COMP_WORDS[at]}}
        [[ $option == -* ]] && break
    done
    case "$command $option $((COMP_CWORD - at))" in
{values}
{files}
    esac
    if [[ -z $known ]]; then
        case $command in
{options}
        esac
        [[ $word == -* ]] || known=${{known%%--*}}
    fi
    [[ $COMP_CWORD == 1 ]] && known={commands}
    COMPREPLY=($(compgen -W "$known" -- "$word"))
}}
complete -o default -F _workbook workbook ./workbook
"""


def commands_of(parser: argparse.ArgumentParser) -> dict[str, argparse.ArgumentParser]:
    """The commands of a parser, by their names."""
    made = next(action for action in parser._actions if isinstance(action, argparse._SubParsersAction))
    return dict(made.choices)


def complete(action: argparse.Action, words: list[str]) -> None:
    """Says which words may stand for an argument that has no choices of its own."""
    vars(action)["completes"] = words


def complete_after(action: argparse.Action, words: dict[str, list[str]]) -> None:
    """Says which words may stand behind some of the words of an argument."""
    vars(action)["completes_after"] = words


def words_of(action: argparse.Action) -> list[str]:
    """The words that may stand for an argument, or nothing if any may."""
    return [str(word) for word in getattr(action, "completes", None) or action.choices or []]


def branch(pattern: str, words: list[str]) -> str:
    """A branch of a `case`."""
    return f"        {pattern}) known={shlex.quote(' '.join(words))} ;;"


def values_of(name: str, command: argparse.ArgumentParser) -> typing.Iterator[str]:
    """The branches of the options of a command that take one of some words."""
    for action in command._actions:
        if action.option_strings and words_of(action):
            place = "*" if action.nargs == "+" else "1"
            for option in action.option_strings:
                yield branch(f'"{name} {option} "{place}', words_of(action))
        for word, others in getattr(action, "completes_after", {}).items():
            yield branch(f'"{name} {word} "*', others)


def files_of(commands: dict[str, argparse.ArgumentParser]) -> str:
    """The branch of the options that take a text of their own: the shell itself completes files there."""
    free = [f'"{name} {option} 1"' for name, command in commands.items() for action in command._actions
            if action.nargs != 0 and not words_of(action) for option in action.option_strings]
    return f"        {'|'.join(free)}) COMPREPLY=(); return ;;"


def options_of(name: str, command: argparse.ArgumentParser) -> str:
    """The branch of a command: the words of its arguments, then its options."""
    words = [word for action in command._actions if not action.option_strings for word in words_of(action)]
    return branch(name, words + [option for action in command._actions for option in action.option_strings
                                 if option.startswith("--")])


def script(shell: str, parser: argparse.ArgumentParser) -> str:
    """The script that a shell reads."""
    commands = commands_of(parser)
    values = [branch for name, command in commands.items() for branch in values_of(name, command)]
    options = [options_of(name, command) for name, command in commands.items()]
    return SCRIPT.format(front=SHELLS[shell], values="\n".join(values), files=files_of(commands),
                         options="\n".join(options), commands=shlex.quote(" ".join(commands)))

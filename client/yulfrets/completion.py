"""Completion of the command line for bash and zsh, made from the parser itself."""

from __future__ import annotations

import argparse
from collections.abc import Iterator

BASH = """# completion of yulfrets for bash: eval "$(yulfrets completion bash)"
_yulfrets_words() {{
    case "$1" in
{cases}
    esac
}}
_yulfrets() {{
    local path='' word at current=${{COMP_WORDS[COMP_CWORD]}}
    for ((at = 1; at < COMP_CWORD; at++)); do
        word=${{COMP_WORDS[at]}}
        case " $(_yulfrets_words "$path") " in
        *" $word "*) [[ $word == -* ]] || path="${{path:+$path }}$word" ;;
        esac
    done
    mapfile -t COMPREPLY < <(compgen -W "$(_yulfrets_words "$path")" -- "$current"
        [[ $current == -* ]] || compgen -f -- "$current")
}}
complete -o filenames -F _yulfrets yulfrets
"""
ZSH = """#compdef yulfrets
# completion of yulfrets for zsh: source <(yulfrets completion zsh), after compinit
_yulfrets_words() {{
    case "$1" in
{cases}
    esac
}}
_yulfrets() {{
    local path_='' word
    local -a found
    for word in "${{(@)words[2,CURRENT-1]}}"; do
        if [[ " $(_yulfrets_words "$path_") " == *" $word "* && $word != -* ]]; then
            path_="${{path_:+$path_ }}$word"
        fi
    done
    found=(${{=$(_yulfrets_words "$path_")}})
    compadd -- $found
    [[ ${{words[CURRENT]}} == -* ]] || _files
}}
(( $+functions[compdef] )) && compdef _yulfrets yulfrets
"""


def subparsers(parser: argparse.ArgumentParser) -> dict[str, argparse.ArgumentParser]:
    """The subcommands of a parser."""
    found: dict[str, argparse.ArgumentParser] = {}
    for action in parser._actions:
        if isinstance(action, argparse._SubParsersAction):
            found.update(action.choices)
    return found


def words_of(parser: argparse.ArgumentParser) -> list[str]:
    """The words that may stand behind a command: subcommands, options and their choices."""
    words = list(subparsers(parser))
    for action in parser._actions:
        words += [option for option in action.option_strings if option.startswith("--")]
        if action.option_strings and action.choices:
            words += [str(choice) for choice in action.choices]
    return words


def paths(parser: argparse.ArgumentParser, front: str = "") -> Iterator[tuple[str, list[str]]]:
    """Each command with the words that may follow it."""
    yield front, words_of(parser)
    for name, inner in subparsers(parser).items():
        yield from paths(inner, f"{front} {name}".strip())


def completion(parser: argparse.ArgumentParser, shell: str) -> str:
    """The script for a shell."""
    cases = "\n".join(
        f"    '{path}') echo '{' '.join(dict.fromkeys(words))}' ;;" for path, words in paths(parser)
    )
    return (BASH if shell == "bash" else ZSH).format(cases=cases)

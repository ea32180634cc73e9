"""The manual page and the completions of shells, from the command line's own parser."""
import argparse
from typing import Dict, List

FILES = {"FILE", "OLD", "NEW", "REQUESTS", "RECORD", "PROGRAM", "DIR"}
EXAMPLES = """policy check service.yaml
policy encode service.yaml --output service.bin
policy test service.tests.yaml --junit report.xml
policy judge service.yaml --path /admin --header 'x-user: alice' --fact connection.mtls=true
policy ask service.yaml --allowed --when 'request.path.startsWith("/admin") && !connection.mtls'
policy diff old.yaml new.yaml
policy replay /var/log/rbacd/record.jsonl new.yaml
policy decode service.bin"""


def commands_of(parser: argparse.ArgumentParser) -> Dict[str, argparse.ArgumentParser]:
    """The commands, each with its parser."""
    [found] = [action for action in parser._actions if isinstance(action, argparse._SubParsersAction)]
    return dict(found.choices)


def help_of(parser: argparse.ArgumentParser) -> Dict[str, str]:
    """What each command does, in short."""
    [found] = [action for action in parser._actions if isinstance(action, argparse._SubParsersAction)]
    return {action.dest: action.help or "" for action in found._choices_actions}


def options_of(parser: argparse.ArgumentParser) -> List[argparse.Action]:
    """The options of a command."""
    return [action for action in parser._actions if action.option_strings]


def arguments_of(parser: argparse.ArgumentParser) -> List[argparse.Action]:
    """The words of a command that are no options."""
    return [action for action in parser._actions if not action.option_strings]


def _escaped(text: str) -> str:
    """A text of roff."""
    text = text.replace("\\", "\\e").replace("-", "\\-").replace("%%", "%")
    return "\n".join("\\&" + line if line[:1] in (".", "'") else line for line in text.split("\n"))


def _takes(action: argparse.Action) -> str:
    return "" if action.nargs == 0 else f" \\fI{_escaped(str(action.metavar or action.dest.upper()))}\\fR"


def page(parser: argparse.ArgumentParser) -> str:
    """The manual page in roff."""
    lines = [
        '.TH POLICY 1 "" "Vupresal" "User Commands"',
        ".SH NAME",
        "policy \\- policies of Envoy's RBAC filter, checked, tested and encoded",
    ]
    lines += [".SH SYNOPSIS", ".B policy", "\\fICOMMAND\\fR [\\fIOPTION\\fR...] [\\fIFILE\\fR...]", ".SH DESCRIPTION"]
    lines += [_escaped(parser.description), ".SH COMMANDS"]
    for name, command in commands_of(parser).items():
        words = "".join(_takes(action) for action in arguments_of(command))
        lines += [f".SS policy {name}{words}", _escaped(command.description or "")]
        for action in options_of(command):
            lines += [
                ".TP",
                ", ".join(f"\\fB{_escaped(option)}\\fR" for option in action.option_strings) + _takes(action),
            ]
            lines.append(_escaped((action.help or "") % {"default": action.default}))
        if command.epilog:
            lines += [".PP", ".nf", _escaped(command.epilog), ".fi"]
    lines += [".SH EXIT STATUS", _escaped(parser.epilog), ".SH ENVIRONMENT", ".TP", ".B RBACD", "The engine's program."]
    lines += [".SH EXAMPLES", ".nf", _escaped(EXAMPLES), ".fi", ".SH SEE ALSO", ".BR rbacd (1)"]
    return "\n".join(lines) + "\n"


def bash(parser: argparse.ArgumentParser) -> str:
    """The completion for bash."""
    cases = []
    for name, command in commands_of(parser).items():
        options = " ".join(option for action in options_of(command) for option in action.option_strings)
        cases.append(f'    {name}) options="{options}" ;;')
    names = " ".join(commands_of(parser))
    return "\n".join(
        [
            "# bash completion for policy",
            "_policy() {",
            '  local word="${COMP_WORDS[COMP_CWORD]}" options=""',
            '  if [ "$COMP_CWORD" -eq 1 ]; then',
            f'    mapfile -t COMPREPLY < <(compgen -W "{names} --help --version" -- "$word")',
            "    return",
            "  fi",
            '  case "${COMP_WORDS[1]}" in',
            *cases,
            "  esac",
            '  case "$word" in',
            '    -*) mapfile -t COMPREPLY < <(compgen -W "$options" -- "$word") ;;',
            '    *) mapfile -t COMPREPLY < <(compgen -f -- "$word") ;;',
            "  esac",
            "}",
            "complete -o filenames -F _policy policy",
            "",
        ]
    )


def _zsh_text(text: str) -> str:
    for one in "\\[]:'":
        text = text.replace(one, "" if one == "'" else "\\" + one)
    return text


def zsh(parser: argparse.ArgumentParser) -> str:
    """The completion for zsh."""
    lines = ["#compdef policy", "_policy() {", "  local -a commands", "  commands=("]
    lines += [f"    '{name}:{_zsh_text(words)}'" for name, words in help_of(parser).items()]
    lines += [
        "  )",
        "  if (( CURRENT == 2 )); then",
        "    _describe command commands",
        "    return",
        "  fi",
        '  case "$words[2]" in',
    ]
    for name, command in commands_of(parser).items():
        lines.append(f"    {name}) _arguments -S \\")
        for action in options_of(command):
            value = "" if action.nargs == 0 else f":{(action.metavar or action.dest).lower()}:" + _files(action)
            lines += [f"      '{option}[{_zsh_text(action.help or '')}]{value}' \\" for option in action.option_strings]
        lines.append("      '*:file:_files' ;;")
    return "\n".join(
        lines
        + ["  esac", "}", 'if [ "$funcstack[1]" = _policy ]; then _policy "$@"; else compdef _policy policy; fi', ""]
    )


def _files(action: argparse.Action) -> str:
    return "_files" if action.metavar in FILES else ""

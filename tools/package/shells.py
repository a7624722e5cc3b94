"""Completions of the program daybook for bash, zsh and fish: commands, the options of each, and files."""
from __future__ import annotations

from pages import Option, Page

# What options take that is no file, as choices; an empty list for what only the user knows.
CHOICES = {"AREA": ["PVB", "TVB", "AVB"], "dmy": ["dmy"], "VERSION": ["1", "2", "3"], "ID": [], "N": [], "NAME": []}


def names(page: Page) -> str:
    return " ".join(option.name for option in page.options)


def bash(commands: list[Page]) -> str:
    cases = "\n".join(f"        {page.name}) options='{names(page)}' ;;" for page in commands)
    taking = {o.name: CHOICES[o.value] for page in commands for o in page.options if o.value in CHOICES}
    values = "\n".join(f"        {name}) mapfile -t COMPREPLY < <(compgen -W '{' '.join(words)}' -- \"$word\"); return ;;" for name, words in sorted(taking.items()))
    return f"""# Completion of daybook for bash.
_daybook() {{
    local word=${{COMP_WORDS[COMP_CWORD]}} before=${{COMP_WORDS[COMP_CWORD - 1]}} options=
    local commands='{' '.join(page.name for page in commands)}'
    if [ "$COMP_CWORD" -eq 1 ]; then
        mapfile -t COMPREPLY < <(compgen -W "$commands help --help --version" -- "$word")
        return
    fi
    case ${{COMP_WORDS[1]}} in
        help)
            mapfile -t COMPREPLY < <(compgen -W "$commands" -- "$word")
            return
            ;;
{cases}
    esac
    case $before in
{values}
    esac
    case $word in
        -*) mapfile -t COMPREPLY < <(compgen -W "$options --help" -- "$word") ;;
        *) compopt -o filenames 2>/dev/null; mapfile -t COMPREPLY < <(compgen -f -- "$word") ;;
    esac
}}
complete -F _daybook daybook
"""


def quoted(text: str) -> str:
    """Between single quotes, for zsh; in a description of it brackets and colons mean something."""
    return text.replace("'", "'\\''")


def zsh_option(option: Option) -> str:
    about = option.about.replace("\\", "").replace("[", "(").replace("]", ")").replace(":", " ")
    value = ""
    if option.value in CHOICES:
        words = CHOICES[option.value]
        value = f":{option.value}:({' '.join(words)})" if words else f":{option.value}: "
    elif option.value:
        value = f":{option.value}:_files"
    return f"'{quoted(f'{option.name}[{about}]{value}')}'"


def zsh(commands: list[Page]) -> str:
    listed = "\n".join(f"        '{quoted(page.name)}:{quoted(page.about.replace(':', ' '))}'" for page in commands)
    cases = "\n".join(f"        {page.name}) _arguments {' '.join(map(zsh_option, page.options))} '*:file:_files' ;;" for page in commands)
    return f"""#compdef daybook
# Completion of daybook for zsh.
_daybook() {{
    local -a commands
    commands=(
{listed}
    )
    if (( CURRENT == 2 )); then
        _describe command commands
        return
    fi
    local command=$words[2]
    shift words
    (( CURRENT-- ))
    case $command in
        help) _describe command commands ;;
{cases}
    esac
}}
_daybook "$@"
"""


def fish_option(page: Page, option: Option) -> str:
    spelled = f"-s {option.name[1:]}" if len(option.name) == 2 else f"-l {option.name[2:]}"
    taking = ""
    if option.value in CHOICES:
        taking = f" -x -a '{' '.join(CHOICES[option.value])}'"
    elif option.value:
        taking = " -r -F"
    return f"complete -c daybook -n '__fish_seen_subcommand_from {page.name}' {spelled}{taking} -d '{fish_quoted(option.about)}'"


def fish_quoted(text: str) -> str:
    return text.replace("\\", "\\\\").replace("'", "\\'")


def fish(commands: list[Page]) -> str:
    lines = ["# Completion of daybook for fish."]
    for page in commands:
        lines.append(f"complete -c daybook -n __fish_use_subcommand -f -a {page.name} -d '{fish_quoted(page.about)}'")
    lines.append(f"complete -c daybook -n '__fish_seen_subcommand_from help' -f -a '{' '.join(page.name for page in commands)}'")
    for page in commands:
        lines += [fish_option(page, option) for option in page.options]
    return "\n".join(lines) + "\n"

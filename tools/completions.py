#!/usr/bin/env python3
"""Makes the man page and the shell completions of what `canplan --help` and `canplan SUB --help` print, and looks whether the files are so.

    python3 tools/completions.py [--check | --write]

The files are docs/canplan.1, docs/completions/canplan.bash and docs/completions/canplan.zsh. With --write they are written. Else they are compared, and the
status is 1 if one is not what the help gives. A value whose name this script does not know is a fault: FILES, FOLDERS or PLAIN has to name it. The completion
for bash is tried, too, by calling it, if bash is there.
"""
import os
import re
import shutil
import subprocess
import sys

from files import bytes_of, status_of, write

HERE = os.path.dirname(os.path.dirname(os.path.realpath(__file__)))
PROGRAM = os.environ.get("CANPLAN", f"{HERE}/bin/canplan")
# The values that files and folders complete, and those that nothing completes. A name in small letters is of the last kind.
FILES = {"FILE", "NODES", "PDOS", "OUT", "REFUSALS", "TRACE", "LOG", "IN", "PORT"}
FOLDERS = {"FOLDER", "OLD", "NEW"}
PLAIN = {"NODE", "NODE.TPDO", "INDEX", "SUB", "VALUE", "NUMBER", "LIST", "TITLE", "DATE", "US", "PPM", "NAME", "COMMAND", "FORMAT"}
POSSIBLE = re.compile(r"\s*\[possible values: (.*)\]$")
MADE = "Made by tools/completions.py of the help of canplan"


class Word:
    """An option, or an argument without one: its name, its short name, what its value is called, what is said of it, and the values that it may have."""

    def __init__(self, left, right):
        found = POSSIBLE.search(right)
        self.about = POSSIBLE.sub("", right)
        self.values = found[1].split(", ") if found else []
        names = re.match(r"(?:-(\w), )?(?:--([\w-]+))?(?: ?<(.*)>)?$", left) if left.startswith("-") else None
        self.short, self.option, self.value = names.groups() if names else (None, None, left.strip("<>[]"))
        self.is_optional = left.startswith("[")

    @property
    def is_list(self):
        return self.value == "LIST"

    @property
    def kind(self):
        """What completes the value: its values, files, folders or nothing."""
        if self.values:
            return "values"
        if self.value in FILES:
            return "files"
        return "folders" if self.value in FOLDERS else "nothing"

    @property
    def is_known(self):
        return not self.value or bool(self.values) or self.value in FILES | FOLDERS | PLAIN or self.value.islower()


class Help:
    """What one help says: the first line, the usage, its arguments and options, its subcommands, and what is said below them."""

    def __init__(self, text):
        parts = re.split(r"\n\n", text.strip())
        self.about, self.usage = parts[0], parts[1].removeprefix("Usage: ")
        self.arguments, self.options, self.subcommands, self.rest = [], [], [], []
        for part in parts[2:]:
            head, _, rows = part.partition("\n")
            pairs = [re.split(r"\s{2,}", line.strip(), maxsplit=1) for line in rows.splitlines()]
            if head == "Arguments:":
                self.arguments = [Word(*it) for it in pairs]
            elif head == "Options:":
                self.options = [Word(*it) for it in pairs]
            elif head == "Commands:":
                self.subcommands = pairs
            else:
                self.rest.append(part)

    @property
    def examples(self):
        return [re.sub(r"^Examples?:", "", line).strip() for part in self.rest if part.startswith("Example") for line in part.splitlines()]


def printed(*words):
    return subprocess.run([PROGRAM, *words], stdout=subprocess.PIPE, stdin=subprocess.DEVNULL, text=True, check=True).stdout


# ---- the man page

def roff(text):
    """A text as roff takes it: backslashes, hyphens and quotes as they are, and no request at the start of a line."""
    plain = text.replace("\\", "\\e").replace("-", "\\-").replace("'", "\\(aq").replace("`", "\\(ga")
    return f"\\&{plain}" if plain.startswith((".", "\\(aq")) else plain


def full_stop(text):
    return f"{text}." if text[-1].isalnum() or text.endswith(")") else text


def roff_word(word):
    """One word as an entry of a list."""
    names = [f"\\fB{roff(it)}\\fR" for it in (f"-{word.short}" if word.short else None, f"--{word.option}" if word.option else None) if it]
    value = f"\\fI{roff(word.value)}\\fR" if word.value else ""
    entry = f"[{value}]" if word.is_optional else value
    lines = [".TP", " ".join([", ".join(names), entry] if names and entry else names or [entry]), full_stop(roff(word.about))]
    if word.values:
        lines.append("One of " + ", ".join(f"\\fB{roff(it)}\\fR" for it in word.values) + ("; several are parted by commas." if word.is_list else "."))
    return lines


def roff_usage(usage):
    """A usage with its program and subcommand bold."""
    found = re.match(r"(canplan(?: [a-z]+)?)(.*)", usage)
    return f"\\fB{roff(found[1])}\\fR{roff(found[2])}"


def roff_subcommand(name, said):
    lines = [f".SS {roff(name)}", roff_usage(said.usage), ".PP", full_stop(roff(said.about))]
    for word in [*said.arguments, *[it for it in said.options if it.option != "help"]]:
        lines += roff_word(word)
    return lines


KEPT_FILES = (
    ("nodes.csv, pdos.csv", "The tables of nodes and of PDOs, under any names. The EDS files that they name are in the folder of the table of nodes."),
    ("NAME.toml", "A project file, which stands for the names of the tables and some options. It is given in the place of NODES and PDOS."),
    ("OUT/plan.txt", "The plan, which canplan plan prints, too."),
    ("OUT/refusals.csv", "The evidence against each slower rate, which canplan check reads."),
    ("OUT/node-005.dcf", "The EDS file of node 5 with what the plan sets, and such a file for each device."),
)


def statuses(top):
    """The statuses that the help of the program lists."""
    part = next(it for it in top.rest if it.startswith("Statuses:"))
    return [re.split(r"\s{2,}", line.strip(), maxsplit=1) for line in part.splitlines()[1:]]


def man_page(version, top, helps):
    other = [it for it in top.rest if not it.startswith("Statuses:")]
    lines = [f'.\\" {MADE}.', f'.TH CANPLAN 1 "" "{roff(version)}" "User Commands"', ".nh", ".ad l", ".SH NAME", f"canplan \\- {roff(top.about[0].lower() + top.about[1:])}", ".SH SYNOPSIS"]
    for name in helps:
        lines += [roff_usage(helps[name].usage), ".br"]
    lines += [roff_usage("canplan help [COMMAND]"), ".br", roff_usage("canplan --version"), ".SH DESCRIPTION", full_stop(roff(top.about))]
    for part in other:
        lines += [".PP", full_stop(roff(part))]
    lines += [".SH COMMANDS"]
    for name, said in helps.items():
        lines += roff_subcommand(name, said)
    lines += [".SH EXIT STATUS"]
    for number, meaning in statuses(top):
        lines += [".TP", f"\\fB{number}\\fR", full_stop(roff(meaning[0].upper() + meaning[1:]))]
    lines += [".SH FILES"]
    for file, meaning in KEPT_FILES:
        lines += [".TP", f"\\fI{roff(file)}\\fR", roff(meaning)]
    lines += [".SH EXAMPLES", ".nf", *[roff(it) for said in helps.values() for it in said.examples], ".fi"]
    lines += [".SH SEE ALSO", "\\fBcandump\\fR(1), \\fBslcand\\fR(8), \\fBstty\\fR(1)", ".PP", roff("The manual is in docs/manual/ beside the sources.")]
    return "\n".join(lines) + "\n"


# ---- bash

BASH_HEAD = r"""# {made}. Source this file, or put it into the folder of bash completions.

# Completes the word by those of a list.
_canplan_words() {{
    mapfile -t COMPREPLY < <(compgen -W "$1" -- "$word")
}}

# Completes the last part of a list with commas.
_canplan_list() {{
    local before=""
    [[ $word == *,* ]] && before="${{word%,*}},"
    mapfile -t COMPREPLY < <(compgen -P "$before" -W "$1" -- "${{word##*,}}")
}}

# Completes the word by files (-f) or folders (-d).
_canplan_files() {{
    compopt -o filenames 2> /dev/null
    mapfile -t COMPREPLY < <(compgen "$1" -- "$word")
}}

_canplan() {{
    local word="${{COMP_WORDS[COMP_CWORD]}}" before="${{COMP_WORDS[COMP_CWORD - 1]}}" sub="${{COMP_WORDS[1]}}" place=1 at it
    COMPREPLY=()
    # A word `--rate=5` comes as three.
    if [[ $word == "=" ]]; then
        word=""
    elif [[ $before == "=" ]]; then
        before="${{COMP_WORDS[COMP_CWORD - 2]}}"
    fi
    if ((COMP_CWORD == 1)); then
        _canplan_words "{top}"
        return
    fi
    # The value of an option.
    case "$sub $before" in
"""
BASH_MIDDLE = r"""    esac
    if [[ $word == -* ]]; then
        case "$sub" in
{options}
        esac
        return
    fi
    # An argument: its place is that behind those that are there.
    for ((at = 2; at < COMP_CWORD; at++)); do
        it="${{COMP_WORDS[at]}}"
        case "$sub $it" in
{valued}) [[ ${{COMP_WORDS[at + 1]}} == "=" ]] && ((at++)); ((at++)) ;;
        *" -"?*) ;;
        *) ((place++)) ;;
        esac
    done
    case "$sub $place" in
"""
BASH_END = """    esac
}
complete -F _canplan canplan
"""


def bash_action(word):
    """The call that completes a value."""
    if word.values:
        return f'_canplan_{"list" if word.is_list else "words"} "{" ".join(word.values)}"'
    return {"files": "_canplan_files -f", "folders": "_canplan_files -d", "nothing": ":"}[word.kind]


def bash_cases(pairs, ending):
    """The branches of a case, those of one action together."""
    groups = {}
    for pattern, action in pairs:
        groups.setdefault(action, []).append(f'"{pattern}"')
    return "".join(f"    {' | '.join(patterns)})\n        {action}\n{ending}        ;;\n" for action, patterns in groups.items())


def bash(top, helps):
    names = [*helps, "help"]
    words = [f"--{it.option}" for it in top.options]
    valued = [(f"{name} --{it.option}", bash_action(it)) for name, said in helps.items() for it in said.options if it.value]
    places = [(f"{name} {at}", bash_action(it)) for name, said in helps.items() for at, it in enumerate(said.arguments, 1) if it.kind != "nothing"]
    options = "\n".join(f'        {name}) _canplan_words "{" ".join(f"--{it.option}" for it in said.options)}" ;;' for name, said in helps.items())
    patterns = "        " + " | ".join(f'"{it}"' for it, _ in valued)
    text = BASH_HEAD.format(made=MADE, top=" ".join([*names, *words])) + bash_cases(valued, "        return\n") + BASH_MIDDLE.format(options=options, valued=patterns)
    return text + bash_cases([*places, ("help 1", f'_canplan_words "{" ".join(helps)}"')], "") + BASH_END


# ---- zsh

def zsh_text(text):
    """A text within quotes and brackets of `_arguments`."""
    return re.sub(r"([\[\]:\\])", r"\\\1", text).replace("'", "'\\''")


def zsh_action(word):
    if word.values:
        values = " ".join(word.values)
        return f"_values -s , {word.value} {values}" if word.is_list else f"({values})"
    return {"files": "_files", "folders": "_files -/", "nothing": " "}[word.kind]


def zsh_spec(at, word):
    about = zsh_text(word.about)
    if word.option:
        head = f"(-{word.short} --{word.option})'{{-{word.short},--{word.option}}}'" if word.short else f"--{word.option}"
        return f"'{head}{'=' if word.value else ''}[{about}]{f':{word.value}:{zsh_action(word)}' if word.value else ''}'"
    return f"'{at}{'::' if word.is_optional else ':'}{word.value}:{zsh_action(word)}'"


def zsh(top, helps):
    lines = ["#compdef canplan", f"# {MADE}. Put it as _canplan into a folder of fpath.", "", "_canplan() {", "    local sub=$words[2]", "    if ((CURRENT == 2)); then", "        local -a subs", "        subs=("]
    lines += [f"            '{name}:{zsh_text(about)}'" for name, about in top.subcommands]
    lines += ["        )", "        _describe subcommand subs", f"        _arguments {' '.join(zsh_spec(0, it) for it in top.options)}", "        return", "    fi", "    shift words", "    ((CURRENT--))", "    case $sub in"]
    for name, said in helps.items():
        specs = [zsh_spec(0, it) for it in said.options] + [zsh_spec(at, it) for at, it in enumerate(said.arguments, 1)]
        lines += [f"    {name})", "        _arguments -S \\", *[f"            {it} \\" for it in specs[:-1]], f"            {specs[-1]}", "        ;;"]
    lines += [f"    help) _arguments '1:subcommand:({' '.join(helps)})' ;;", "    esac", "}", "", '_canplan "$@"']
    return "\n".join(lines) + "\n"


# ---- the files

def completed(*words):
    """What bash completes the last of some words by."""
    script = 'source "$1"; shift; COMP_WORDS=("$@"); COMP_CWORD=$(($# - 1)); _canplan; printf "%s\\n" "${COMPREPLY[@]}"'
    done = subprocess.run(["bash", "-c", script, "bash", f"{HERE}/docs/completions/canplan.bash", "canplan", *words], stdout=subprocess.PIPE, stderr=subprocess.STDOUT, text=True, cwd=HERE)
    return done.stdout.split()


def faults_of_bash(helps):
    """What bash does not complete as the help says."""
    asked = [(["sc"], ["scan"]), (["nope", ""], []), (["plan", "examples/valve/nodes"], ["examples/valve/nodes.csv"]), (["diff", "example"], ["examples"])]
    for name, said in helps.items():
        asked.append(([name, "--"], [f"--{it.option}" for it in said.options]))
        asked += [([name, f"--{it.option}", ""], it.values) for it in said.options if it.values]
        asked += [([name, f"--{it.option}", "=", it.values[-1]], [it.values[-1]]) for it in said.options if it.values]
        asked += [([name, f"--{it.option}", f"{it.values[0]},{it.values[-1]}"], [f"{it.values[0]},{it.values[-1]}"]) for it in said.options if it.is_list]
        before = [it for option in said.options if option.value for it in (f"--{option.option}", "1")]
        asked += [([name, *before, *["1"] * at, ""], it.values) for at, it in enumerate(said.arguments) if it.values]
    answers = [(words, wanted, completed(*words)) for words, wanted in asked]
    return [f"bash completes {' '.join(words)} by {answer}, not by {wanted}" for words, wanted, answer in answers if answer != wanted]


def main(words):
    if words not in ([], ["--check"], ["--write"]):
        print(__doc__)
        return 2
    top = Help(printed("--help"))
    helps = {name: Help(printed(name, "--help")) for name, _ in top.subcommands if name != "help"}
    faults = [f"{name}: {it.value}: neither FILES nor FOLDERS nor PLAIN has it" for name, said in helps.items() for it in [*said.arguments, *said.options] if not it.is_known]
    made = {"docs/canplan.1": man_page(printed("--version").strip(), top, helps), "docs/completions/canplan.bash": bash(top, helps), "docs/completions/canplan.zsh": zsh(top, helps)}
    for file, text in made.items():
        path = f"{HERE}/{file}"
        if words == ["--write"]:
            os.makedirs(os.path.dirname(path), exist_ok=True)
            write(path, text.encode())
        elif not os.path.exists(path) or bytes_of(path) != text.encode():
            faults.append(f"{file} is not what the help gives: tools/completions.py --write writes it")
    if shutil.which("bash") and not faults:
        faults += faults_of_bash(helps)
    return status_of(faults)


if __name__ == "__main__":
    sys.exit(main(sys.argv[1:]))

"""Derives the manual pages of nvq and nvmu, and what completes their words in bash, from their help: examples/helps.py writes and holds both.

Help doesn't tell the statuses with which a program ends. A page has them from here, after the table in docs/FORMATS.md. The examples of a page
stand here, too, and the built programs do each of them.
"""

import os
import re
import shutil
import subprocess
import tempfile
import textwrap
from dataclasses import dataclass

PROGRAMS = ("nvmu", "nvq")
WORDS = (
    "nvq is for people, and nvmu for other programs. Both have audit and witness, which print the same.",
    "An option's number is decimal, or hexadecimal after 0x. It may end in k, m or g, for 1,024, 1,048,576 or 1,073,741,824 times as much.",
    "A file whose name is - is written ./-.",
    "A short input may ask for much: each Read of 65,536 blocks has a run hold 32 MiB and more, and all of an input is read before any of it is judged. Where you don't trust an input, set ulimit -v. Memory that is refused then is told as no memory, with status 1, or ends a command with 0/06.",
)
DONE = "What was asked for was done."
FAULT = "A fault, which is told on standard error."
# The lines for each status, from 0 on.
EXITS = {
    "nvmu": (
        (
            DONE,
            "run: all jobs were done, whatever their statuses.",
            "audit: the record is lawful.",
            "witness: the record or the order explains the trace.",
            "refute: the contradiction shows that nothing explains the trace, or a reply is wrong by itself.",
        ),
        (FAULT,),
        (
            "audit: the record is unlawful.",
            "witness: the record or the order doesn't explain the trace.",
            "refute: the contradiction doesn't show that nothing explains the trace.",
        ),
    ),
    "nvq": (
        (
            DONE,
            "audit: the record is lawful.",
            "witness: the record explains the trace.",
            "certify: an order explains the trace.",
            "run: the commands were done; with --check they ended as the lists expect.",
            "explain: also where the record is unlawful.",
        ),
        (FAULT,),
        (
            "audit: the record is unlawful.",
            "witness: the record doesn't explain the trace.",
            "certify: nothing explains the trace: no device that keeps the standard answers so.",
            "run --check: a command didn't end as its list expects.",
        ),
        ("certify: neither an order of the trace's points nor a contradiction was found.",),
    ),
}
# What the examples read, as their user wrote it.
HEAD = "trace nsze 32 block 512 nabsn 7 nabo 0 nawun 7 nacwu 7 first 0 start zeroes reads whole\n10 20 1 1 write 0 1 41 = 0/00\n"
WRITTEN = {
    "own.list": "write 0 1 41\nread 0 1\n",
    "own.txt": HEAD + "30 40 1 2 read 0 1 = 0/00 512*41\n",
    "wrong.txt": HEAD + "30 40 1 2 read 0 1 = 0/00 512*00\n",
}
# The examples of a page: what each is for, and its commands.
EXAMPLES = {
    "nvq": (
        ("Do the commands of a list in their order, and keep a record of that:", ["nvq run --workers 1 --record own.nvr own.list"]),
        (
            "Say whether the record is lawful, and what is wrong with it or in it:",
            ["nvq audit own.nvr", "nvq explain own.nvr"],
        ),
        (
            "Say whether a device may answer as its hosts saw, and keep the order that shows so:",
            ["nvq trace own.txt own.nvt", "nvq certify --evidence own.nve own.nvt"],
        ),
        (
            "Keep the contradiction where no device may, and show what it says:",
            [
                "nvq trace wrong.txt wrong.nvt",
                "nvq certify --evidence wrong.nve wrong.nvt",
                "nvq explain wrong.nvt wrong.nve",
            ],
        ),
        (
            "Write lists for two hosts by a seed, and do them with eight workers:",
            ["nvq generate --seed 7 1.list 2.list", "nvq run --nsze 32 --workers 8 1.list 2.list"],
        ),
    ),
    "nvmu": (
        (
            "Make a host file of a list, do its commands, and keep a record of that:",
            [
                "nvq assemble own.list own.nvq",
                "nvmu run --nsze 32 --block 512 --nabsn 7 --nabo 0 --nawun 7 --nacwu 7 --workers 1 --limit 100 --out own.nvr own.nvq",
            ],
        ),
        ("Say whether the record is lawful, by an object of JSON:", ["nvmu audit --json own.nvr"]),
        ("Say whether the record explains what the hosts saw:", ["nvq trace own.txt own.nvt", "nvmu witness own.nvt own.nvr"]),
        (
            "Judge a contradiction of what they saw:",
            [
                "nvq trace wrong.txt wrong.nvt",
                "nvq certify --evidence wrong.nve wrong.nvt",
                "nvmu refute wrong.nvt wrong.nve",
            ],
        ),
    ),
}
# The statuses with which commands of the examples end, where these aren't 0.
ENDS = {"nvq certify --evidence wrong.nve wrong.nvt": 2}
FORMATS = "docs/FORMATS.md has the files, the lines that are printed, and the faults."
# Where an item begins; what is said of it goes on further to the right.
BEGINS = re.compile(r" {2}\S| {6}--")
# Options, and what stands for a word of the user's.
MARKED = re.compile(r"((?<![\w-])--?\w[\w-]*|<[^<>]+>|(?<=\[)[A-Z_]+(?=\]))")
ROFF = str.maketrans({"\\": r"\e", "-": r"\-", "'": r"\(aq", '"': r"\(dq", "`": r"\(ga", "^": r"\(ha", "~": r"\(ti"})
COMPLETION = """\
# Completes the words of {name} in bash. Derived from docs/help by examples/manuals.py; examples/helps.py --derive writes it.
_{name}() {{
    local IFS=$' \\t\\n' word=${{COMP_WORDS[COMP_CWORD]}} before=${{COMP_WORDS[COMP_CWORD - 1]}} options='' valued=''
    COMPREPLY=()
    if [ "$COMP_CWORD" -eq 1 ] || [ "${{COMP_WORDS[1]}}" = help ]; then
        COMPREPLY=($(compgen -W "{first}" -- "$word"))
        return
    fi
    case ${{COMP_WORDS[1]}} in
{cases}    esac
    # Where nothing is answered bash takes files: for an argument, and for what an option wants.
    case " $valued " in
    *" $before "*) return ;;
    esac
    case $word in
    -*) COMPREPLY=($(compgen -W "$options" -- "$word")) ;;
    esac
}}
complete -o default -F _{name} {name}
"""
CASE = """\
    {command})
        options="{options}"
        valued="{valued}"
        ;;
"""
# What bash must answer for the last word behind a program's name; nothing stands for files.
ANSWERS = {
    "nvmu": {
        "--v": "--version",
        "run --limit --o": "",
        "run --limit 1 --o": "--out",
        "refute --": "--help",
        "list --": "",
    },
    "nvq": {
        "ru": "run",
        "a": "assemble audit",
        "help ru": "run",
        "run --nsz": "--nsze",
        "run --js": "--json",
        "run ": "",
        "run --record ": "",
        "run --record out/a.nvr --re": "--record",
        "list --js": "--json",
        "explain --json": "",
    },
}
# Reads the script and completes the words behind it, of which the first is the program's name.
ASKING = r"""
source "$1" && shift
way=$(complete -p "$1")
way=${way#* -F }
COMP_WORDS=("$@") COMP_CWORD=$(($# - 1))
"${way%% *}"
printf '%s\n' "${COMPREPLY[*]}"
"""


@dataclass
class Item:
    """A command, an argument or an option, and what is said of it."""

    head: str
    said: str

    def names(self):
        """The names of an option, the short one first."""
        return re.findall(r"--?\w[\w-]*", re.split(r"[<\[]", self.head)[0])

    def wants_a_value(self):
        return " <" in self.head


class Help:
    """What a page of help says, in the layout of `clap`."""

    def __init__(self, text):
        about, _, rest = f"\n{text}".partition("\nUsage:")
        usage, _, rest = rest.partition("\n\n")
        self.about, self.usage = " ".join(about.split()), " ".join(usage.split())
        self.commands, self.arguments, self.options, self.more = [], [], [], []
        sections = {"Commands:": self.commands, "Arguments:": self.arguments, "Options:": self.options}
        for line in rest.splitlines():
            if BEGINS.match(line):
                head, _, said = line.strip().partition("  ")
                items.append(Item(head, said.strip()))
            elif line.startswith(" "):
                items[-1].said = f"{items[-1].said} {line.strip()}".strip()
            elif line in sections:
                items = sections[line]
            elif line:
                self.more.append(line)


def roff(text):
    return text.translate(ROFF)


def marked(words):
    """A line of roff with options in bold, each on one line with what it wants, and in italics what stands for a word of the user's."""
    parts = MARKED.split(words)
    for place in range(1, len(parts), 2):
        parts[place] = rf"\f{'B' if parts[place].startswith('-') else 'I'}{roff(parts[place].strip('<>'))}\fR"
    parts[::2] = [roff(it) for it in parts[::2]]
    return re.sub(r"(\\fB\S+) (?=\\fI)", r"\1\\ ", "".join(parts))


def paragraph(text):
    """Text as lines of roff, of which none begins as a request does."""
    lines = textwrap.wrap(roff(text), 78, break_long_words=False, break_on_hyphens=False)
    return [rf"\&{line}" if line.startswith(".") else line for line in lines]


def sentence(text):
    return paragraph(text if text.endswith(".") else f"{text}.")


def listed(items):
    """Arguments or options, each with what is said of it below."""
    return [line for it in items for line in (".TP", marked(it.head), *paragraph(it.said))]


def synopsis(name, commands):
    """How each command is called, with its name before a hanging indent."""
    found = []
    for command, page in commands.items():
        call = f"{name} {command}"
        found += [f'.SY "{roff(call)}"', marked(page.usage.removeprefix(f"{call} "))] if page else []
    return [*found, ".YS"]


def example(text, calls):
    """An example, with each of its commands on a line."""
    return [".PP", *paragraph(text), ".PP", ".EX", *map(roff, calls), ".EE"]


def manual(name, whole, commands):
    """The manual page of a program."""
    lines = [r'.\" Derived from docs/help by examples/manuals.py; examples/helps.py --derive writes it.', f'.TH {name.upper()} 1 "" Zalkvorn']
    lines += [".SH NAME", *paragraph(f"{name} - {whole.about[:1].lower()}{whole.about[1:]}")]
    lines += [".SH SYNOPSIS", *synopsis(name, commands), ".SH DESCRIPTION", *sentence(whole.about)]
    for text in WORDS:
        lines += [".PP", *paragraph(text)]
    lines += [".SH COMMANDS"]
    for it in whole.commands:
        page = commands[it.head]
        lines += [f".SS {roff(it.head)}", *sentence(page.about if page else it.said)]
        lines += [line for text in (page.more if page else ()) for line in (".PP", *paragraph(text))]
        lines += listed(page.arguments + page.options) if page else []
    lines += [".SH OPTIONS", *listed(whole.options), ".SH EXIT STATUS"]
    for status, (first, *others) in enumerate(EXITS[name]):
        lines += [".TP", str(status), *paragraph(first)]
        lines += [line for text in others for line in (".br", *paragraph(text))]
    lines += [".SH EXAMPLES", *(line for text, calls in EXAMPLES[name] for line in example(text, calls))]
    lines += [".SH SEE ALSO", *(f".BR {it} (1)" for it in PROGRAMS if it != name), ".PP", *paragraph(FORMATS)]
    return "".join(f"{line}\n" for line in lines)


def named(options):
    return " ".join(name for it in options for name in it.names())


def completion(name, whole, commands):
    """The script that completes a program's words in bash."""
    cases = [
        CASE.format(command=command, options=named(page.options), valued=named(it for it in page.options if it.wants_a_value()))
        for command, page in commands.items()
        if page
    ]
    return COMPLETION.format(name=name, first=" ".join([*commands, named(whole.options)]), cases="".join(cases))


def derived(kept):
    """What is derived, by its path in docs/, from the help there: `kept` gives what stands at a path, or None."""
    for name in PROGRAMS:
        whole = Help(kept(f"help/{name}.txt") or "")
        # The command `help` has no page.
        texts = {it.head: kept(f"help/{name}-{it.head}.txt") for it in whole.commands}
        commands = {command: Help(text) if text else None for command, text in texts.items()}
        yield f"man/{name}.1", manual(name, whole, commands)
        yield f"completion/{name}.bash", completion(name, whole, commands)


def answered(bash, path, *words):
    """What bash completes the last word to, by the script at a path."""
    done = subprocess.run([bash, "-c", ASKING, "bash", path, *words], stdout=subprocess.PIPE, text=True)
    return done.stdout.strip()


def completions(bash, folder):
    """What must be so of bash and the scripts of a folder, and whether it is."""
    for name, answers in ANSWERS.items():
        path = os.path.join(folder, f"{name}.bash")
        is_taken = subprocess.run([bash, "-n", path]).returncode == 0
        yield f"bash takes {name}.bash", is_taken
        for line, answer in answers.items() if is_taken else ():
            yield f"bash completes '{name} {line}' to '{answer}'", answered(bash, path, name, *line.split(" ")) == answer


def completed(folder):
    """How often bash does with the scripts of a folder what it must, and how often it doesn't. Without bash nothing is tried."""
    bash = shutil.which("bash")
    tried = list(completions(bash, folder)) if bash else []
    wrong = [told for told, is_so in tried if not is_so]
    for told in wrong:
        print(f"it isn't so that {told}")
    return len(tried) - len(wrong), len(wrong)


def examples_done(program):
    """How many commands of the pages' examples end as they must, and how many don't. `program` gives the path of a built one by its name."""
    tried, wrong = 0, 0
    for examples in EXAMPLES.values():
        with tempfile.TemporaryDirectory(prefix="manuals-") as folder:
            for path, text in WRITTEN.items():
                with open(os.path.join(folder, path), "w") as file:
                    file.write(text)
            for call in (it for _, calls in examples for it in calls):
                name, *words = call.split()
                done = subprocess.run([program(name), *words], cwd=folder, stdout=subprocess.DEVNULL, stderr=subprocess.PIPE, text=True)
                tried += 1
                if done.returncode != ENDS.get(call, 0):
                    wrong += 1
                    print(f"{call} ended with status {done.returncode}: {done.stderr}")
    return tried - wrong, wrong

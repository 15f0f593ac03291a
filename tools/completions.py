#!/usr/bin/env python3
"""Writes the man page, and the completions of options for bash, zsh and fish, from the help of the program.

`completions.py PROGRAM` writes the files of the folder completions/. `completions.py --check PROGRAM` writes nothing, and ends with 1 if a file
isn't what the help says.
"""
import pathlib
import re
import subprocess
import sys

# Why: docs/DECISIONS.md, "What the command line leaves out".
FOLDER = pathlib.Path(__file__).resolve().parent.parent / "completions"
OPTION = re.compile(r"  (?:-(?P<letter>\w), |    )--(?P<word>[\w-]+)(?: <(?P<value>\w+)>)?\s{2,}(?P<help>.*?)(?: \[possible values: (?P<values>.*)\])?")
ARGUMENT = re.compile(r"  \[FILE\]\.\.\.  (.*)")


def help_of(program):
    """Returns the first line of the help, its text for FILE, its options, and what follows them."""
    said = subprocess.run([program, "--help"], stdout=subprocess.PIPE, text=True, check=True).stdout
    about, _, rest = said.partition("\n\n")
    listed, _, after = rest.partition("\n\nOptions:\n")[2].partition("\n\n")
    options = [OPTION.fullmatch(line).groupdict() for line in listed.splitlines()]
    return about, ARGUMENT.search(said)[1], options, after.rstrip("\n")


def bash(options):
    words = " ".join(f"--{it['word']}" for it in options) + "".join(f" -{it['letter']}" for it in options if it["letter"])
    cases = "".join(
        f"    --{it['word']}) COMPREPLY=($(compgen -W '{it['values'].replace(',', '')}' -- \"$word\")); return ;;\n" for it in options if it["values"]
    )
    others = "|".join(f"--{it['word']}" + (f"|-{it['letter']}" if it["letter"] else "") for it in options if it["value"] and not it["values"])
    return f"""# Completions of hmc for bash: source this file, or copy it to ~/.local/share/bash-completion/completions/hmc.
_hmc() {{
  local word=${{COMP_WORDS[COMP_CWORD]}}
  COMPREPLY=()
  case ${{COMP_WORDS[COMP_CWORD - 1]}} in
{cases}    {others}) return ;;
  esac
  case $word in
    -*) COMPREPLY=($(compgen -W '{words}' -- "$word")) ;;
    *) COMPREPLY=($(compgen -f -X '!*.hs' -- "$word") $(compgen -d -- "$word")) ;;
  esac
}}
complete -o filenames -F _hmc hmc
"""


def quoted(text):
    """Returns a text for single quotes of a shell."""
    return text.replace("'", "'\\''")


def zsh(options):
    rows = []
    for it in options:
        names = f"(-{it['letter']} --{it['word']})'{{-{it['letter']},--{it['word']}}}'" if it["letter"] else f"--{it['word']}"
        said = quoted(it["help"].replace("[", "\\[").replace("]", "\\]").replace(":", "\\:"))
        values = f"({it['values'].replace(',', '')})" if it["values"] else ""
        value = f":{it['value']}:{values}" if it["value"] else ""
        rows.append(f"  '{names}[{said}]{value}' \\\n")
    return f"""#compdef hmc
# Completions of hmc for zsh: copy this file to a folder of $fpath.
_arguments -s \\
{''.join(rows)}  '*:FILE:_files -g "*.hs"'
"""


def fish(options):
    rows = []
    for it in options:
        letter = f" -s {it['letter']}" if it["letter"] else ""
        values = f" -x -a '{it['values'].replace(',', '')}'" if it["values"] else " -x" if it["value"] else ""
        rows.append(f"complete -c hmc{letter} -l {it['word']}{values} -d '{quoted(it['help'])}'\n")
    return "# Completions of hmc for fish: copy this file to ~/.config/fish/completions.\n" + "".join(rows)


def roff(text):
    """Returns a text as lines of a man page."""
    text = text.replace("\\", "\\e").replace("-", "\\-")
    return "\n".join(f"\\&{line}" if line.startswith((".", "'")) else line for line in text.splitlines())


def man(about, file, options, after):
    rows = []
    for it in options:
        value = f" \\fI{it['value']}\\fR" if it["value"] else ""
        names = ", ".join(f"\\fB{roff(name)}\\fR{value}" for name in ([f"-{it['letter']}"] if it["letter"] else []) + [f"--{it['word']}"])
        values = f" ({it['values']})" if it["values"] else ""
        rows.append(f".TP\n{names}\n{roff(it['help'] + values)}.\n")
    first, _, statuses = after.partition("\n\nExit statuses:\n")
    listed = "".join(f".TP\n\\fB{number}\\fR\n{roff(said)}.\n" for number, said in (line.strip().split("  ", 1) for line in statuses.splitlines()))
    note, _, example = first.partition("\n\n")
    return f""".\\" Written by tools/completions.py from the help of the program.
.TH HMC 1
.SH NAME
hmc \\- {roff(about[0].lower() + about[1:])}
.SH SYNOPSIS
\\fBhmc\\fR [\\fIOPTIONS\\fR] [\\fIFILE\\fR]...
.SH DESCRIPTION
{roff(note)}
.TP
\\fIFILE\\fR
{roff(file)}.
.SH OPTIONS
{''.join(rows)}.SH EXIT STATUS
{listed}.SH EXAMPLE
.nf
{roff(example)}
.fi
"""


def files(program):
    about, file, options, after = help_of(program)
    return {"hmc.bash": bash(options), "_hmc": zsh(options), "hmc.fish": fish(options), "hmc.1": man(about, file, options, after)}


def main(words):
    is_check = words[:1] == ["--check"]
    if len(words) != 1 + is_check:
        print(__doc__, file=sys.stderr)
        return 2
    status = 0
    for name, text in files(words[-1]).items():
        if not is_check:
            (FOLDER / name).write_text(text, encoding="utf-8")
        elif (FOLDER / name).read_text(encoding="utf-8") != text:
            print(f"completions/{name} isn't what the help says: run tools/completions.py PROGRAM")
            status = 1
    return status


if __name__ == "__main__":
    sys.exit(main(sys.argv[1:]))

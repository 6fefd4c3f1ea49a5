#!/usr/bin/env python3
"""Compares the completions for bash, zsh and fish with the program's help.

    completions.py [PROGRAM]

Each has to offer the subcommands of the help, the options of each, and the values that the help lists for an option. bash completes for this check;
the files for zsh and fish are read as text, and by the shell itself where it is installed.
"""
import pathlib
import re
import shutil
import subprocess
import sys

from manual import PROGRAM, ROOT, block_under, help_facts, help_of

FILES = ROOT / "completions"
SHELLS = {"zsh": ["zsh", "-n", FILES / "_dwframe"], "fish": ["fish", "--no-execute", FILES / "dwframe.fish"]}


def values_in_help(program, names):
    """The values that the help lists, as `--size <4|8>`, by option."""
    texts = [block_under(help_of(program, name), "Options") for name in names]
    return {option: set(values.split("|")) for option, values in re.findall(r"(--\w+) <(\w+(?:\|\w+)+)>", "\n".join(texts))}


# ---- bash


def offered(*words):
    """What bash offers for the last of these words."""
    script = 'source "$1"; shift; COMP_WORDS=("$@"); COMP_CWORD=$(($# - 1)); _dwframe; printf "%s\\n" "${COMPREPLY[@]}"'
    run = subprocess.run(["bash", "-c", script, "bash", FILES / "dwframe.bash", "dwframe", *words], capture_output=True, text=True, check=True)
    return set(run.stdout.split())


def facts_of_bash(names, valued):
    options = {name: offered(name, "--") - {"--help"} for name in names}
    return offered("") - {"help"}, options, {option: offered(names[0], option, "") for option in valued}


# ---- zsh and fish, as text


def facts_of_zsh():
    text = (FILES / "_dwframe").read_text()
    listed = set(re.findall(r"^        ['\"]([a-z]+):", text, re.M)) - {"help"}
    common = re.search(r"common=\((.*?)\n    \)", text, re.S)[1]
    arms = re.findall(r"^        \(([\w|]+)\)\n +_arguments (.*) ;;", text, re.M)
    options = {name: set(re.findall(r"'(--\w+)\[", common + words)) for names, words in arms for name in names.split("|")}
    return listed, options, {option: set(values.split()) for option, values in re.findall(r"'(--\w+)\[[^\]]*\]:\w+:\(([\w ]+)\)'", text)}


def facts_of_fish():
    text = (FILES / "dwframe.fish").read_text()
    every = re.search(r"^set -l all (.*)$", text, re.M)[1]
    listed = set(re.findall(r"^complete .* -a (\w+) -d", text, re.M)) - {"help"}
    rules = re.findall(r'^complete -c dwframe -n "__fish_seen_subcommand_from ([\w $]+)" .*-l (\w+)(?: -a \'([\w ]+)\')?', text, re.M)
    options = {name: set() for name in every.split()}
    for names, option, _ in rules:
        for name in names.replace("$all", every).split():
            options[name].add("--" + option)
    return listed, options, {"--" + option: set(values.split()) for _, option, values in rules if values}


def main():
    program = pathlib.Path(sys.argv[1] if len(sys.argv) > 1 else PROGRAM).resolve()
    subcommands = help_facts(program)[0]
    names = list(subcommands)
    values = values_in_help(program, names)
    common = {"--size", "--order"}
    wanted = set(names), {name: options | common for name, (options, _) in subcommands.items()}, values
    wrong = []
    for shell, facts in (("bash", facts_of_bash(names, values)), ("zsh", facts_of_zsh()), ("fish", facts_of_fish())):
        for what, found, expected in zip(("subcommands", "options", "values"), facts, wanted):
            if found != expected:
                wrong.append(f"{shell}: {what}: the completion has {found}, the help {expected}")
    for shell, command in SHELLS.items():
        if not shutil.which(shell):
            print(f"completions: {shell} is not installed, and left out")
        elif subprocess.run(command).returncode != 0:
            wrong.append(f"{shell} does not read its file")
    print("\n".join(wrong) or f"completions: {len(names)} subcommands as in the help")
    return 1 if wrong else 0


if __name__ == "__main__":
    sys.exit(main())

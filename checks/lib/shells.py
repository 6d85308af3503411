"""What bash, zsh and fish offer behind a line that is typed, in a folder with a file and a folder: for checks/completions."""

import os
import pathlib
import pty
import re
import select
import shlex
import shutil
import subprocess
import sys
import tempfile
import time

from lib import tree

FOLDER = tree.TOP / "completions"
SECONDS = 60
FILE, PLACE = "a.code", "place/"
NUMBERS = {last: " ".join(map(str, range(first, last + 1))) for first, last in ((1, 2), (1, 8), (0, 15))}
# What is offered as the value of an option, by `lfiload COMMAND --help`.
VALUES = {
    "--profile": NUMBERS[2], "--verifiers": NUMBERS[8], "--connections": NUMBERS[8], "--module": NUMBERS[15], "--format": "text json",
    "--pages": "small large", "--out": PLACE, "--socket": f"{FILE} {PLACE}", "--steps": "", "--seconds": "", "--entry": "",
}
# How the files of zsh and fish say so; of other values they are a list, or nothing.
SAID = {VALUES["--out"]: ("_files -/", "-x -a '(__fish_complete_directories)'"), VALUES["--socket"]: ("_files", "-r -F"), "": (" ", "-x")}
# What a shell is told first. A tab lists what is offered; control and o has `echo END` in place of what was typed.
BASH = ("bind 'set page-completions off'; bind 'set completion-query-items -1'; bind '\"\\t\": possible-completions'; PS1='>'; "
        "bind '\"\\C-o\": \"\\C-uecho END\\n\"'; source {}/lfiload.bash; echo END")
ZSH = ("fpath=({} $fpath); autoload -Uz compinit; compinit -D -u; unsetopt auto_list; PS1='>'; LISTMAX=1000; bindkey '^I' list-choices; "
       "bindkey -s '^O' '^Uecho END\\n'; echo END")


def wrong(text):
    sys.exit(f"completions: {text}")


class Terminal:
    """A shell at a terminal, which echoes what is typed."""

    def __init__(self, words, setup, folder):
        self.pid, self.at = pty.fork()
        if self.pid == 0:
            os.chdir(folder)
            os.execvpe(words[0], words, {"PATH": os.environ["PATH"], "TERM": "dumb", "HOME": folder, "COLUMNS": "300", "LINES": "1000"})
        os.write(self.at, (setup.format(shlex.quote(str(FOLDER))) + "\n").encode())
        self.read()

    def read(self):
        """All that comes up to the line END and the next prompt."""
        text, until = "", time.monotonic() + SECONDS
        while not re.search(r"\nEND\s.*>", text, re.S):
            if not select.select([self.at], [], [], max(0, until - time.monotonic()))[0]:
                wrong(f"a shell says nothing more than {text}")
            text += os.read(self.at, 65_536).decode(errors="replace")
        return text

    def offered(self, line):
        """The words that are listed, or written behind the line where there is one."""
        os.write(self.at, (line + "\t\x0f").encode())
        found, typed, begun = set(), line.strip(), line.rpartition(" ")[2]
        for told in re.sub(r"\r|\x1b\[\S*?[a-z]|\x07", "\n", self.read().partition("echo END")[0]).splitlines():
            text = told.removeprefix(">")
            words = (begun + text.removeprefix(typed) if text.startswith(typed) else text).split()
            found |= set(words[:1] if " -- " in told else words)
        return found - {">", begun}

    def close(self):
        os.close(self.at)
        os.waitpid(self.pid, 0)


class Fish:
    """fish, which tells what it offers."""

    def __init__(self, folder):
        self.folder = folder

    def offered(self, line):
        script = f"source {shlex.quote(str(FOLDER / 'lfiload.fish'))}; complete -C {shlex.quote(line)}"
        done = subprocess.run(["fish", "--no-config", "-c", script], cwd=self.folder, capture_output=True, text=True, timeout=SECONDS)
        if done.returncode or done.stderr:
            wrong(f"fish says of {line!r}: {done.stderr}")
        return {it.split("\t")[0] for it in done.stdout.splitlines()}

    def close(self):
        pass


SHELLS = {
    "bash": lambda folder: Terminal(["bash", "--norc", "--noprofile", "-i"], BASH, folder),
    "zsh": lambda folder: Terminal(["zsh", "-f", "-i"], ZSH, folder),
    "fish": Fish,
}


# ---- what the helps say


def options_of(text):
    """The options that the help of a command names, each with whether it takes a value."""
    return {name: bool(value) for name, value in re.findall(r"^ +(?:-\w, )?(--[\w-]+)( <\w+>)?", text, re.M)}


def operand_of(text):
    """The name of the files that a command takes; none where it takes none."""
    found = re.search(r"^Arguments:\n +<(\w+)>", text, re.M)
    return found and found[1]


def begun(words, many):
    """The beginnings of words, of so many letters, each with the words that begin so."""
    return {it[:many]: {word for word in words if word.startswith(it[:many])} for it in words}


def lines_behind(name, own, files):
    """Lines on which more words stand already, as `lines_of` has them."""
    for before in [f"{option} {(VALUES[option].split() or ['1'])[0]}" if takes else option for option, takes in own.items() if option != "--help"] + [FILE] * bool(files):
        used = before.split()[0]
        yield f"lfiload {name} {before} --", set(own) - {used}
        for option in (it for it, takes in own.items() if takes and it != used):
            yield f"lfiload {name} {before} {option} ", set(VALUES[option].split())
        if files:
            yield f"lfiload {name} {before} {PLACE[:2]}", {PLACE}


def lines_of(options, helps):
    """Lines, and which words are offered behind them, and where a word is begun. An option that stands there already may be offered again."""
    yield "lfiload ", set(helps)
    for begin, wanted in {**begun(helps, 1), **begun(helps, 2), "--": options, **begun(options, 3)}.items():
        yield f"lfiload {begin}", set(wanted)
    for name, text in helps.items():
        own = options_of(text)
        for begin, wanted in {"--": own, **begun(own, 3)}.items():
            yield f"lfiload {name} {begin}", set(wanted)
        files = {FILE, PLACE} if operand_of(text) else set()
        for begin in ("", FILE[:2]) if files else ("--explain ",):
            yield f"lfiload {name} {begin}", {it for it in files if it.startswith(begin)}
        for option in (it for it, takes in own.items() if takes):
            values = VALUES[option].split()
            for begin, wanted in {"": values, **begun(values, 1)}.items():
                yield f"lfiload {name} {option} {begin}", set(wanted)
        yield from lines_behind(name, own, files)


def type_lines(name, options, helps):
    """What a shell offers behind each of the lines; but for options where no word is begun, which some list beside the rest."""
    with tempfile.TemporaryDirectory() as folder:
        pathlib.Path(folder, FILE).touch()
        pathlib.Path(folder, PLACE).mkdir()
        shell, count = SHELLS[name](folder), 0
        for line, wanted in lines_of(options, helps):
            *before, last = line.split(" ")
            found = {it for it in shell.offered(line) if last.startswith("-") or not it.startswith("-")}
            if found - {*before, last} != wanted - {*before, last}:
                wrong(f"behind {line!r} {name} offers {sorted(found)}, and not {sorted(wanted)}")
            count += 1
        shell.close()
    return count


# ---- what the files say, also where no such shell is


def compare_values(name, text, zsh, fish):
    """Behind an option of a command zsh and fish have what is its value."""
    for option in (it for it, takes in options_of(text).items() if takes):
        of_zsh, of_fish = SAID.get(VALUES[option], (f"({VALUES[option]})", f"-x -a '{VALUES[option]}'"))
        if not re.search(rf"'{option}\[.*\]:\w+:{re.escape(of_zsh)}'", zsh):
            wrong(f"zsh has something else than {of_zsh!r} behind {name} {option}")
        if not any(f"seen_subcommand_from {name}' -l {option[2:]} {of_fish} -d" in line for line in fish):
            wrong(f"fish has something else than {of_fish!r} behind {name} {option}")


def compare_texts(helps):
    """zsh and fish have the values of options, and offer files to the commands whose help names an operand, and to no other."""
    zsh, fish = (FOLDER / "_lfiload").read_text(), (FOLDER / "lfiload.fish").read_text().splitlines()
    # By two colons the words begin with the command.
    if zsh.split("\n", 1)[0] != "#compdef lfiload" or "'*::argument:->argument'" not in zsh:
        wrong("_lfiload isn't for lfiload, or doesn't begin its words with the command")
    strays = [line for line in fish[1:] if not line.startswith("complete -c lfiload ")]
    if strays:
        wrong(f"lfiload.fish: {strays[0]}")
    for name, text in helps.items():
        part = re.search(rf"^ +{name}\)\n(.*?)^ +;;$", zsh, re.M | re.S)[1]
        wanted = [f"'*:{operand_of(text)}:_files'"] if operand_of(text) else []
        if re.findall(r"'\*:.*", part) != wanted:
            wrong(f"zsh doesn't offer files to {name} as its help says: {wanted}")
        compare_values(name, text, part, fish)
        if fish.count(f"complete -c lfiload -n '__fish_seen_subcommand_from {name}' -F") != len(wanted):
            wrong(f"fish doesn't offer files to {name} as its help says: {wanted}")


# ---- bash, whose words are not those that are typed


def offered_by_bash(words):
    """What bash offers for the last of these words, by the function that it has for the program's name."""
    script = (f"source {shlex.quote(str(FOLDER / 'lfiload.bash'))}; [[ $(complete -p lfiload) == *' -F _lfiload lfiload' ]] || exit 1; "
              f"COMP_WORDS=({shlex.join(words)}); COMP_CWORD={len(words) - 1}; _lfiload; printf '%s\\n' \"${{COMPREPLY[@]}}\"")
    done = subprocess.run(["bash", "-c", script], capture_output=True, text=True)
    if done.returncode or done.stderr:
        wrong(f"bash has no function for lfiload: {done.stderr}")
    return sorted(done.stdout.split())


def try_equals(name, options):
    """bash offers behind `--option=`, of which it makes words of their own, what it offers behind `--option `."""
    for option in options:
        apart, told = offered_by_bash(["lfiload", name, option, ""]), offered_by_bash(["lfiload", name, option, "="])
        begun = [offered_by_bash(["lfiload", name, option, "=", it]) for it in apart]
        if told != apart or any(it not in found for it, found in zip(apart, begun)) or option == "--profile" and apart != ["1", "2"]:
            wrong(f"bash offers {told} behind {name} {option}=, {apart} behind a space, and {begun} where these are begun")


def try_all(options, helps):
    """The files, and each shell that is here. The program has these options by itself."""
    compare_texts(helps)
    for shell in SHELLS:
        if not shutil.which(shell):
            print(f"completions: {shell} isn't here")
            continue
        if shell == "bash":
            for name, text in helps.items():
                try_equals(name, options_of(text))
        print(f"completions: {shell} offers what --help says behind {type_lines(shell, options, helps)} lines")

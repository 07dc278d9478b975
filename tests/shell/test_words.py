"""The manual page and the completions, put where docs/USE.md says."""
import os
import re
import shutil

from tree import documents

import pytest

from support.bench import TOP

pytestmark = pytest.mark.needs("man", "mandoc", "zsh", "fish", "bash")
OPTIONS = {"solve": "--budget", "check": "", "grade": "--budget --trace", "generate": "--seed --budget --tries"}
# Runs a line in an interactive zsh, with a `compadd` that prints what is offered.
ZSH = r"""zmodload zsh/zpty
zpty z zsh -i
zpty -w z 'PROMPT=; setopt no_beep; bindkey -e'
zpty -w z 'compadd() { if [[ ${@[1,(i)(-|--)]} == *-(O|A|D)\ * ]]; then builtin compadd "$@"; return; fi; local -a hits
builtin compadd -A hits "$@"; (( $#hits )) && print -rl -- "<"$^hits">"; builtin compadd "$@" }'
zpty -w z 'offer() { print; _main_complete; compstate[list]=; compstate[insert]=; print ">>" }
zle -C offered list-choices offer; bindkey "^I" offered; print READ""Y'
zpty -r -m z text '*READY*'
zpty -n -w z "$1"$'\t'
zpty -r -m z text '*>>*' && print -r -- $text
zpty -d z
"""
BASH = r"""source /usr/share/bash-completion/bash_completion
words=($1) ; [[ $1 == *' ' ]] && words+=('')
COMP_WORDS=("${words[@]}") COMP_CWORD=$((${#words[@]} - 1)) COMP_LINE=$1 COMP_POINT=${#1}
_completion_loader puzzles; [ $? = 124 ] && _puzzles && printf '%s\n' "${COMPREPLY[@]}"
"""


def installed(bench):
    """Runs the lines of installing of docs/USE.md, all but the program's own, in a home of its own."""
    lines = [line for line in re.findall(r"^\$ (.*(?:\n> .*)*)", (TOP / "docs" / "USE.md").read_text(), re.M)
             if re.search(r"completions|puzzles\.1|zshrc", line)]
    assert len(lines) >= 2, f"{len(lines)} lines of docs/USE.md install the manual page and completions"
    (bench.folder / ".local" / "bin").mkdir(parents=True, exist_ok=True)
    shutil.copy(bench.program, bench.folder / ".local" / "bin" / "puzzles")
    for line in lines:
        bench.good(["bash", "-c", f"cd {TOP} && " + line.replace("\n> ", "\n")])
    return f"{bench.folder}/.local/bin:/usr/bin:/bin"


def test_manual(bench):
    """the manual page has no warning, `man` finds and shows it, and its lines answer"""
    path = installed(bench)
    done = bench.run(["mandoc", "-T", "lint", "-W", "warning", TOP / "docs" / "puzzles.1"])
    assert done.returncode == 0 and not done.stdout and not done.stderr, done.stdout + done.stderr
    found = bench.good(["man", "-w", "puzzles"], PATH=path).strip()
    assert found.startswith(str(bench.folder)), f"man finds {found}"
    text = bench.good(["man", "puzzles"], PATH=path, MANWIDTH="100", MAN_KEEP_FORMATTING="")
    assert "generate" in text and "EXIT STATUS" in text, text[:300]
    source = (TOP / "docs" / "puzzles.1").read_text().replace(r"\e", "\\")
    lines = [line for line in re.findall(r"^\.Dl \$ (.*)$", source, re.M) if "ids.txt" not in line]
    answers = [bench.run(["bash", "-c", line]).stdout.splitlines()[0] for line in lines]
    assert len(answers) == 4 and answers[:3] == ["one", "wrong: touch 1,0", "search 4"], f"{answers}"
    assert answers[3].startswith("3x3:"), answers[3]


def offered_by(bench, shell, line, path):
    if shell == "fish":
        return [word.split("\t")[0] for word in bench.run(["fish", "-c", f"complete -C '{line}'"], PATH=path).stdout.splitlines()]
    if shell == "bash":
        return [word for word in bench.run(["bash", "--norc", "-c", BASH, "bash", line], PATH=path).stdout.splitlines() if word]
    done = bench.run(["zsh", "-f", "-c", ZSH, "zsh", line], PATH=path)
    return re.findall("<([^<>\r\n]+)>", done.stdout)


def has_terminal():
    """Whether there are terminals for programs, which zsh wants."""
    try:
        for one in os.openpty():
            os.close(one)
    except OSError:
        return False
    return True


@pytest.mark.parametrize("tool", ["book", "collect"])
def test_manuals_of_tools(bench, tool):
    """the pages of tools have no warning, and name no option or command that the tool doesn't tell"""
    path = TOP / "docs" / f"puzzles-{tool}.1"
    done = bench.run(["mandoc", "-T", "lint", "-W", "warning", path])
    assert done.returncode == 0 and not done.stdout, done.stdout
    told = bench.good([f"puzzles-{tool}", "--help"])
    told += "".join(bench.good([f"puzzles-{tool}", name, "--help"]) for name in ("add", "list") if tool == "collect")
    text = path.read_text()
    named = {*re.findall(r"^\.Fl -(\S+)", text, re.M), *re.findall(r" --([a-z-]+)", text)}
    assert named and all(f"--{name}" in told for name in named), f"{named}"
    commands = re.findall(r"^\.It Cm (\S+)", text, re.M)
    assert all(re.search(rf"\b{name} ", told) for name in commands) and bool(commands) == (tool == "collect"), f"{commands}"


@pytest.mark.skipif(not has_terminal(), reason="no terminal for a program (openpty)")
def test_completions_of_tools(bench):
    """bash, zsh and fish offer a tool's options as it tells them by --help"""
    path = installed(bench)
    for name, tool in bench.tools.items():
        shutil.copy(tool, bench.folder / ".local" / "bin" / name)
    line = "puzzles-book --pap"
    loaded = BASH.replace("[ $? = 124 ] && _puzzles", "_puzzles_tool puzzles-book")
    found = {"bash": bench.run(["bash", "--norc", "-c", loaded, "bash", line], PATH=path).stdout.split(),
             "fish": bench.run(["fish", "-c", "source ~/.config/fish/completions/puzzles.fish; complete -C '" + line + "'"],
                               PATH=path).stdout.split(),
             "zsh": re.findall("<([^<>\r\n]+)>", bench.run(["zsh", "-f", "-c", ZSH, "zsh", line], PATH=path).stdout)}
    assert found == {shell: ["--paper"] for shell in found}, f"{found}"


@pytest.mark.skipif(not has_terminal(), reason="no terminal for a program (openpty)")
def test_completions(bench):
    """bash, zsh and fish find the completions, which offer README's commands, games and options, each where it may stand"""
    path, words = installed(bench), documents.rows("README.md", "## Commands")
    commands = [name.strip("`") for name in words if name.strip("`") in OPTIONS]
    games = re.findall("`([^`]+)`", words["`GAME`"][0])
    assert sorted(commands) == sorted(OPTIONS) and len(games) == 4, f"README: {commands} {games}"
    cases = [("puzzles ", commands), ("puzzles so", ["solve"]), ("puzzles generate pat", ["pattern"])]
    for command, options in OPTIONS.items():
        named = re.findall(r"--\w+", words[f"`{command}`"][0])
        assert set(options.split()) <= set(named), f"README: {command} has {named}, and not {options}"
        cases += [(f"puzzles {command} {start}", [game for game in games if game.startswith(start)]) for start in ("l", "t")]
        cases.append((f"puzzles {command} solo 3x3 --", options.split()))
    cases += [("puzzles generate lightup 7x7 --", OPTIONS["generate"].split() + ["--black"]),
              ("puzzles grade solo --budget 5 --", ["--trace"]), ("puzzles solve solo --budget=5 --", []),
              ("puzzles grade solo -- --", []), ("puzzles nonsense ", [])]
    for shell in ("bash", "zsh", "fish"):
        for line, wanted in cases:
            if shell == "bash" and "=" in line:
                line = line.replace("=", " = ")  # as it cuts words
            found = offered_by(bench, shell, line, path)
            assert sorted(found) == sorted(wanted), f"{shell}: {line!r}: {found}, wanted {wanted}"


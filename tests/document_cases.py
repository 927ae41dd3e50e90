"""Cases of documents: the man page, the completions, and the inventories."""
import os
import pathlib
import pty
import re
import select
import shlex
import shutil
import subprocess
import tempfile
import time

import claims as promised_claims
import completeness
import contracts
import inventories
import names as source_names
import promises as promise_tables
import weakenings
from harness import SECONDS, START, TOP, check, run

# The options of ./tracenode, which are not the program's.
STARTS = {"--prove", "--install", "--release"}

COMMANDS = (("run",), ("replay",), ("round",), ("workers",), ("explain",), ("state",), ("draw",), ("spec",), ("fun",), ("explore",), ("compare",), ("serve",))


def documents():
    """The man page and the completions name the commands and options of the help, and no others."""
    helps = {word: run([*word, "--help"]).stdout.decode() for word in ((), *COMMANDS)}
    commands = set(re.findall(r"^  ([a-z]+) ", helps[()], re.M))
    options = set(re.findall(r"--[a-z-]+", "".join(text.partition("\nExamples:")[0] for text in helps.values())))
    check("the help has commands and options", len(commands) >= 5 and len(options) >= 9, (commands, options))
    files = [TOP / "docs" / "tracenode.1", *sorted((TOP / "completions").iterdir())]
    for file in files:
        text = file.read_text().replace("\\-", "-")
        text = re.sub(r" -l ([a-z-]+)", r" --\1", text)
        named = set(re.findall(r"--[a-z][a-z-]*", text)) - STARTS
        check(f"the options of {file.name}", named == options, (named, options))
        missing = [word for word in commands if not re.search(rf"\b{word}\b", text)]
        check(f"the commands of {file.name}", not missing, missing)
    for file in (*files, TOP / "docs" / "MANUAL.md", TOP / "README.md", START):
        text = re.sub(r" -l ([a-z-]+)", r" --\1", file.read_text().replace("\\-", "-"))
        missing = [option for option in sorted(STARTS) if not re.search(rf"{option}(?![a-z-])", text)]
        check(f"the options of the start script in {file.name}", not missing, missing)
    for (command,) in COMMANDS:
        wanted = set(re.findall(r"--[a-z-]+", helps[(command,)]))
        for shell, named in completed_options(command).items():
            check(f"the options of {command} for {shell}", named == wanted, (named, wanted))


def completed_options(command):
    """The options that each shell's completion has for a command, as its file lists them."""
    zsh = (TOP / "completions" / "_tracenode").read_text()
    part = re.search(rf"^        {command}\)(.*?);;", zsh, re.M | re.S)
    fish = (TOP / "completions" / "tracenode.fish").read_text()
    condition = rf"(?: -n '__fish_seen_subcommand_from {command}')?(?: -s [a-z])?"
    return {
        "bash": {word for word in completed(("tracenode", command, "--"), TOP) if word.startswith("--")},
        "zsh": set(re.findall(r"['},*](--[a-z-]+)}?'?=?\[", part[1] if part else "")),
        "fish": {f"--{name}" for name in re.findall(rf"^complete -c tracenode{condition} -l ([a-z-]+)", fish, re.M)},
    }


def completed(words, folder):
    """What the last of some words is completed to in this folder, by the completion for bash."""
    quoted = " ".join(shlex.quote(word) for word in words)
    script = f"""source {shlex.quote(str(TOP / 'completions' / 'tracenode.bash'))}
COMP_WORDS=({quoted}); COMP_CWORD={len(words) - 1}; _tracenode; printf '%s\\n' "${{COMPREPLY[@]}}"
"""
    ran = subprocess.run(["bash", "-c", script], cwd=folder, stdout=subprocess.PIPE, stderr=subprocess.PIPE, check=False)
    check(f"the completion of {quoted} ends well", not ran.stderr, ran)
    return sorted(ran.stdout.decode().splitlines())


# What the completions for zsh and fish make of the last word of a line.
OF_OTHER_SHELLS = (
    ("tracenode expl", "explain"),
    ("tracenode --ver", "--version"),
    ("tracenode explain --no", "--node"),
    ("tracenode explain --mes", "--message"),
    ("tracenode explain --why", "--why-not"),
    ("tracenode explain --q", None),
    ("tracenode replay --q", "--quiet"),
    ("tracenode round --q", "--quiet"),
    ("tracenode workers --q", "--quiet"),
    ("tracenode workers --no", None),
    ("tracenode explain --js", "--json"),
    ("tracenode round --su", "--summary"),
    ("tracenode spec --for s", "send"),
    ("tracenode replay --picks-file scripts/twi", "scripts/twice.term"),
    ("tracenode replay --picks-file=scripts/twi", "--picks-file=scripts/twice.term"),
    ("tracenode round --control=f", "--control=first"),
    ("tracenode help expl", "explain"),
    ("tracenode --pro", None),
    ("../tracenode --pro", "--prove"),
)


def completed_by_zsh(line, folder):
    """What zsh makes of the last word of a line in this folder: it is typed, at a terminal, and completed."""
    with tempfile.TemporaryDirectory() as home:
        out = pathlib.Path(home) / "line"
        place = shlex.quote(str(TOP / "completions"))
        (pathlib.Path(home) / ".zshrc").write_text(f"""fpath=({place} $fpath); autoload -Uz compinit; compinit -D -u
complete_and_end() {{ zle complete-word; print -r -- "$BUFFER" >{shlex.quote(str(out))}; exit }}
zle -N complete_and_end; bindkey -e; bindkey '^T' complete_and_end
""")
        terminal, end = pty.openpty()
        told, last = b"", time.monotonic() + SECONDS
        how = {"stdin": end, "stdout": end, "stderr": end, "start_new_session": True}
        env = dict(os.environ, ZDOTDIR=home, TERM="dumb")
        with subprocess.Popen(["zsh", "-d", "-i"], cwd=folder, env=env, **how) as process:
            os.close(end)
            os.write(terminal, line.encode() + b"\x14")
            while process.poll() is None and time.monotonic() < last:
                if select.select([terminal], [], [], 0.1)[0]:
                    try:
                        told += os.read(terminal, 4096)
                    except OSError:
                        break
            if time.monotonic() >= last:
                process.kill()
        os.close(terminal)
        words = out.read_text().split() if out.exists() else [told.decode(errors="replace")]
    return None if words == line.split() else words[-1]


def completed_by_fish(line, folder):
    """What fish makes of the last word of a line in this folder; all that it offers, where that isn't one word."""
    place = shlex.quote(str(TOP / "completions" / "tracenode.fish"))
    script = f"source {place}; complete -C {shlex.quote(line)}"
    words = ["fish", "--no-config", "-c", script]
    ran = subprocess.run(words, cwd=folder, capture_output=True, timeout=SECONDS, check=False)
    check(f"the completion by fish of {line} ends well", not ran.stderr, ran)
    offers = [offer.partition("\t")[0] for offer in ran.stdout.decode().splitlines()]
    return offers[0] if len(offers) == 1 else offers or None


def of_other_shells(folder):
    """The completions for zsh and fish, by these shells; one that isn't installed has its cases said to be left out."""
    for shell, complete in (("zsh", completed_by_zsh), ("fish", completed_by_fish)):
        if shutil.which(shell) is None:
            print(f"NOT RUN {len(OF_OTHER_SHELLS)} cases of the completion for {shell}: {shell} is not installed")
            continue
        for line, wanted in OF_OTHER_SHELLS:
            seen = complete(line, folder)
            check(f"the completion by {shell} of {line}", seen == wanted, seen)


def completions():
    """The completions: commands, options, folders, and names with blanks, for bash; for the other shells where they are."""
    with tempfile.TemporaryDirectory() as folder:
        inner = pathlib.Path(folder) / "scripts"
        inner.mkdir()
        for name in ("two words.term", "twice.term"):
            (inner / name).touch()
        rows = (
            (("tracenode", "re"), ["replay"]),
            (("tracenode", "-"), ["--help", "--version", "-V", "-h"]),
            (("./tracenode", "--p"), ["--prove"]),
            (("tracenode", "--p"), [""]),
            (("./tracenode", "--r"), ["--release"]),
            (("./tracenode", "--install", "scr"), ["scripts"]),
            (("./tracenode", "--release", "scr"), ["scripts"]),
            (("tracenode", "ru"), ["run"]),
            (("tracenode", "run", "--l"), ["--limit"]),
            (("tracenode", "state", "--a"), ["--at"]),
            (("tracenode", "draw", "--r"), ["--reject-line", "--round"]),
            (("tracenode", "draw", "--m"), ["--max-memory", "--max-output", "--moves", "--moves-file"]),
            (("tracenode", "round", "--m"), ["--max-memory", "--max-output"]),
            (("tracenode", "round", "--max-output", ""), [""]),
            (("tracenode", "round", "--max-memory", ""), [""]),
            (("tracenode", "explain", "--r"), ["--reject-line", "--round"]),
            (("tracenode", "round", "--control", ""), ["first"]),
            (("tracenode", "replay", "--moves-file", "scripts/twi"), ["scripts/twice.term"]),
            (("tracenode", "explain", "--n"), ["--node"]),
            (("tracenode", "explain", "--m"), ["--max-memory", "--max-output", "--message", "--move", "--moves", "--moves-file"]),
            (("tracenode", "explain", "--w"), ["--why-not"]),
            (("tracenode", "explain", "--q"), [""]),
            (("tracenode", "explain", "--j"), ["--json"]),
            (("tracenode", "replay", "--q"), ["--quiet"]),
            (("tracenode", "replay", "--s"), ["--strict", "--summary"]),
            (("tracenode", "spec", "--j"), ["--json"]),
            (("tracenode", "round", "--e"), ["--expect", "--expect-line", "--expect-session"]),
            (("tracenode", "round", "--expect", "scripts/twi"), ["scripts/twice.term"]),
            (("tracenode", "round", "--expect", "=", "scripts/twi"), ["scripts/twice.term"]),
            (("tracenode", "round", "--s"), ["--strict", "--summary"]),
            (("tracenode", "explain", "--st"), ["--strict"]),
            (("tracenode", "replay", "\"scripts/two w"), ["scripts/two words.term"]),
            (("tracenode", "workers", "--quiet", "scr"), ["scripts"]),
            (("tracenode", "spec", "--for", "s"), ["send"]),
            (("tracenode", "fun", "--for", "r"), ["receive"]),
            (("tracenode", "explore", "--order", "t"), ["total"]),
            (("tracenode", "explore", "--m"), ["--max-memory", "--max-output", "--max-states"]),
            (("tracenode", "replay", "scr"), ["scripts"]),
            (("tracenode", "replay", "scripts/tw"), ["scripts/twice.term", "scripts/two words.term"]),
            (("tracenode", "replay", "scripts/two\\ w"), ["scripts/two words.term"]),
            (("tracenode", "replay", "--picks-file", "scripts/twi"), ["scripts/twice.term"]),
        )
        for words, wanted in rows:
            seen = completed(words, folder)
            check(f"the completion of {' '.join(words)}", seen == wanted, seen)
        of_other_shells(folder)


def promises():
    """The contracts and the wrong bodies that docs/CONTRACTS.md lists, compared with the crates."""
    for name, holds, seen in (*contracts.findings(), *promise_tables.findings()):
        check(name, holds, seen)


def claims():
    """What the completeness functions ensure, and the text of each contract that is claimed; that weaker ones are found."""
    for name, holds, seen in (*completeness.findings(), *promised_claims.findings(), *weakenings.findings()):
        check(name, holds, seen)


def lists():
    """What the documents list and name, compared with the tree."""
    for name, holds, seen in inventories.findings():
        check(name, holds, seen)


def names():
    """The names and shapes of the sources."""
    for name, holds, seen in source_names.findings():
        check(name, holds, seen)

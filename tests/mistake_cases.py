"""Cases of mistakes that who begins makes: the line that says what is wrong, where, and what could be there."""
from harness import TOP, check, run

MISTAKES = TOP / "tests" / "mistakes"


def mistakes():
    """Each mistake: its script, the command line, a word a line, the line that is expected on standard error, standard
    output, and the status where it isn't 0. Standard output is worked out by hand, from the rules.
    """
    folders = sorted(MISTAKES.iterdir())
    check("there are mistakes", bool(folders), folders)
    for folder in folders:
        words = (folder / "args").read_text().removesuffix("\n").split("\n")
        line = (folder / "line").read_text().removesuffix("\n")
        status = folder / "status"
        wanted = int(status.read_text()) if status.exists() else 0
        output = (folder / "stdout").read_bytes()
        ran = run(words, (folder / "stdin").read_bytes())
        lines = ran.stderr.decode().splitlines()
        good = (ran.returncode, ran.stdout, lines) == (wanted, output, [line])
        check(f"the mistake {folder.name}", good, ran)
        if words[0] == "replay" and wanted != 2:
            quiet = run([*words, "--quiet"], (folder / "stdin").read_bytes())
            good = (quiet.returncode, quiet.stdout, quiet.stderr) == (wanted, output, b"")
            check(f"the mistake {folder.name} without notes", good, quiet)
            strict = run([*words, "--strict"], (folder / "stdin").read_bytes())
            good = (strict.returncode, strict.stdout, strict.stderr) == (1, output, ran.stderr)
            check(f"the mistake {folder.name} of a strict run", good, strict)

"""Running the two programs."""
import os
import subprocess

USAGE = (b"usage: rustsec_audit COMMAND\n", 2)


def answer_of(program, words, data=b""):
    """What a program writes for an input, and its status."""
    done = subprocess.run([program, *words], input=data, stdout=subprocess.PIPE, stderr=subprocess.DEVNULL)
    return done.stdout, done.returncode


def check_programs(*programs):
    for program in programs:
        if not (os.path.isfile(program) and os.access(program, os.X_OK)):
            raise SystemExit(f"{program}: no program")


def knows_lint(program, folder):
    """Whether a program has the command `lint`: one that has not answers the usage line."""
    return answer_of(program, ["lint", os.path.join(folder, "nothing.md")]) != USAGE

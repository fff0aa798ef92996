"""The program that ./mv3c starts."""

import os
import subprocess
import sys

from parts import TOP

# Prints the path of the program that ./mv3c starts, once it is there, and the tunables that it has then.
WHERE = """
top=$1 && "$top/mv3c" serial </dev/null >/dev/null && . "$top/release/programs.sh" && find_sources mv3c || exit 70
if is_built mv3c; then echo "$top/crates/mv3c/out/mv3c"; else echo "$top/release/mv3c"; fi
tune_memory
echo "$GLIBC_TUNABLES"
"""


def started_program():
    """The program that ./mv3c starts. From now on programs have the tunables with which it starts."""
    found = subprocess.run(["sh", "-c", WHERE, "sh", TOP], stdout=subprocess.PIPE, text=True)
    if found.returncode != 0:
        sys.exit("./mv3c doesn't start")
    program, os.environ["GLIBC_TUNABLES"] = found.stdout.splitlines()
    return program

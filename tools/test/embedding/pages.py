"""Builds and runs the examples of docs/embedding.md as they stand there: pages.py FOLDER CC

A block of C is a whole program, and one of Python a whole script; the block of text behind it is what it prints. What asks a store is
run where there is a program. Prints a line for each difference, and ends with 0 where there is none."""

import os
import re
import subprocess
import sys

TOP = os.path.dirname(os.path.dirname(os.path.dirname(os.path.dirname(os.path.abspath(__file__)))))


def blocks():
    with open(os.path.join(TOP, "docs/embedding.md"), encoding="utf-8") as file:
        text = file.read()
    return re.findall(r"```(c|python)\n(.*?)```\n\n(?:[^\n`]*\n\n)?```text\n(.*?)```", text, re.S)


def made_of(kind, code, at, cc):
    path = f"{at}.{'c' if kind == 'c' else 'py'}"
    with open(path, "w", encoding="utf-8") as file:
        file.write(code)
    if kind == "python":
        return [sys.executable, path]
    flags = subprocess.run(["pkg-config", "--cflags", "--libs", "adsd"], check=True, stdout=subprocess.PIPE, text=True).stdout.split()
    subprocess.run([cc, "-Wall", "-Wextra", "-Werror", path, *flags, "-o", at], check=True)
    return [at]


def program():
    """The program that ADSD names, or the one that there is; none is built."""
    asked = subprocess.run([os.path.join(TOP, "tools/which-program")], stdout=subprocess.PIPE, text=True, check=False)
    return os.environ.get("ADSD") or asked.stdout.strip()


def main(folder, cc):
    os.makedirs(folder, exist_ok=True)
    faults, found, adsd = 0, blocks(), program()
    for number, (kind, code, wanted) in enumerate(found):
        if "Store" in code and not adsd:
            continue
        words = made_of(kind, code, os.path.join(folder, f"block{number}"), cc)
        environment = {**os.environ, "PYTHONPATH": os.path.join(TOP, "python"), "ADSD": adsd}
        said = subprocess.run(words, stdout=subprocess.PIPE, text=True, check=False, env=environment, cwd=TOP).stdout
        if said != wanted:
            faults += 1
            print(f"DIFFERS docs/embedding.md, block {number} of {kind}: {said!r}, expected {wanted!r}")
    if not found:
        print("DIFFERS docs/embedding.md has no examples")
    return 1 if faults or not found else 0


if __name__ == "__main__":
    sys.exit(main(*sys.argv[1:]))

#!/usr/bin/env python3
"""pages.py PAGE..: runs what the pages show. In each block fenced by ```console a line `$ COMMAND` is run from the
repository's root, and what it prints (standard error too) has to be the lines that follow, up to the next `$` or the end.
"""

import pathlib
import subprocess
import sys

ROOT = pathlib.Path(__file__).resolve().parent.parent


def shown(page):
    """Each command of a page: its line, the command, and the output that the page gives."""
    inside, calls = False, []
    for place, line in enumerate(page.read_text(encoding="utf-8").splitlines(), 1):
        if line.startswith("```"):
            inside = line == "```console"
        elif inside and line.startswith("$ "):
            calls.append((place, line[2:], []))
        elif inside:
            if not calls:
                sys.exit(f"{page}:{place}: output before any command")
            calls[-1][2].append(line)
    return calls


def main(pages):
    ran = wrong = 0
    for page in map(pathlib.Path, pages):
        for place, command, wanted in shown(page):
            done = subprocess.run(["sh", "-c", command], cwd=ROOT, stdin=subprocess.DEVNULL, stdout=subprocess.PIPE,
                                  stderr=subprocess.STDOUT, check=False)
            got = done.stdout.decode("utf-8", "replace").splitlines()
            ran += 1
            if got != wanted:
                wrong += 1
                print(f"{page}:{place}: $ {command}\n--- the page\n" + "\n".join(wanted) + "\n--- printed\n" + "\n".join(got))
    print(f"pages: {ran} commands run, {wrong} with other output than shown")
    return 1 if wrong or not ran else 0


sys.exit(main(sys.argv[1:]))

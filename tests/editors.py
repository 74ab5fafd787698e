#!/usr/bin/env python3
"""Has real editors talk to `itemtree lsp`, without a window: Neovim, Emacs with eglot, and vim with ALE, where they are installed.

  editors.py ITEMTREE

Each opens a file, types a line that is no item, and takes that line back: its problems come and go. Before that Neovim and Emacs type a
constant, which their outline has at once.
"""
import os
import pathlib
import re
import shutil
import subprocess
import sys
import tempfile

HERE = pathlib.Path(__file__).resolve().parent / "editors"

EDITORS = {"nvim": ["--headless", "-u", "NONE", "-n", "-S", str(HERE / "neovim.lua")], "emacs": ["--batch", "-l", str(HERE / "emacs.el")],
           "vim": ["-N", "-es", "-u", "NONE", "-S", str(HERE / "vim.vim")]}

WANTED = {"outline": "Circle area", "typed": "Circle area A", "problems": "7: this item has no end; 7: nothing closes this bracket", "mended": ""}

PROBLEMS = ["problems", "mended"]

passed = failed = 0


def check(is_so, said):
    global passed, failed
    if is_so:
        passed += 1
    else:
        failed += 1
        print(f"editors.py: {said}", file=sys.stderr)


def lacks(editor):
    """Why an editor is not tried, if it is not."""
    if not shutil.which(editor):
        return "is not installed"
    if editor == "emacs" and subprocess.run(["emacs", "--batch", "--eval", "(progn (package-initialize) (require 'eglot))"], capture_output=True, check=False).returncode:
        return "has no eglot"
    if editor == "vim" and subprocess.run(["vim", "-N", "-es", "-u", "NONE", "-c", "if empty(globpath(&packpath, 'pack/*/opt/ale')) | cquit | endif", "-c", "qall"], check=False).returncode:
        return "has no ALE"
    return None


def try_editor(editor, program):
    with tempfile.TemporaryDirectory() as folder:
        environment = {**os.environ, "ITEMTREE": program, "HOME": folder}
        command = ["timeout", "120", editor, *EDITORS[editor]]
        done = subprocess.run(command, cwd=folder, env=environment, stdin=subprocess.DEVNULL, capture_output=True, text=True, check=False)
    shown = dict(re.findall(r"^(\w+): (.*)$", done.stdout, re.M))
    for what in PROBLEMS if editor == "vim" else WANTED:
        wanted = WANTED[what]
        got = shown.get(what, "").replace("itemtree: ", "")
        check(what in shown and got == wanted, f"{editor} shows {what}: {got!r}, and not {wanted!r}; {done.stderr[-500:]}")


if __name__ == "__main__":
    for name in EDITORS:
        lacking = lacks(name)
        if lacking:
            print(f"editors: {name} {lacking}, and is not tried")
        else:
            try_editor(name, os.path.abspath(sys.argv[1]))
    print(f"editors: {passed} passed, {failed} failed")
    sys.exit(failed > 0)

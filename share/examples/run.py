#!/usr/bin/env python3
"""Runs the commands of docs/EXAMPLES.md as they stand there, each block by sh in one folder that is made for them, and compares what they say.

    run.py PROGRAM [FOLDER]     PROGRAM is site_cli; FOLDER is a new one in which all files stay

A comment behind a command that begins as `first=0` or `merged frames=4` must be a line on standard output, in its order; a picture
must be the one that stands in docs/. Lines that want a screen (ffplay, less) or what is not there (ffmpeg, tshark, Pillow) are left
out, and told.
"""
import filecmp
import os
import re
import shutil
import subprocess
import sys
import tempfile

TOP = os.path.dirname(os.path.dirname(os.path.dirname(os.path.abspath(__file__))))
SCREEN = re.compile(r"\bffplay\b|\|\s*less\b")
WANTED = {"ffmpeg": "ffmpeg", "tshark": "tshark", "share/wireshark/test.sh": "tshark", "ffprobe": "ffprobe"}
SECONDS = 1800


def blocks(name):
    with open(name, encoding="utf-8") as file:
        return re.findall(r"^```sh\n(.*?)^```", file.read(), re.M | re.S)


def lines_of(block):
    """The lines of a block, those that go on joined."""
    return block.replace("\\\n", " ").splitlines()


def left_out(line):
    """Why a line is not run, or None."""
    if SCREEN.search(line):
        return "wants a screen"
    for word, program in WANTED.items():
        if word in line and shutil.which(program) is None:
            return f"there is no {program}"
    if "picture.py" in line and not has_pillow():
        return "there is no Pillow"
    return None


def has_pillow():
    """Whether the Python that the programs of share/ are run by has Pillow."""
    return subprocess.run(["python3", "-c", "import PIL"], stderr=subprocess.DEVNULL, check=False).returncode == 0


def wanted_of(lines):
    comments = [line.rpartition("  # ")[2].strip() for line in lines if "  # " in line]
    return [comment for comment in comments if re.match(r"(\w+ )?\w+=\S", comment)]


def run_block(number, block, folder):
    """Runs a block, and gives the first thing that is wrong with it, or None."""
    lines = []
    for line in lines_of(block):
        why = left_out(line)
        if why:
            print(f"block {number}: left out, {why}: {line.strip()[:80]}")
        else:
            lines.append(line)
    done = subprocess.run(["sh", "-ec", "\n".join(lines)], cwd=folder, stdin=subprocess.DEVNULL, stdout=subprocess.PIPE, timeout=SECONDS, check=False)
    if done.returncode != 0:
        return f"ends with {done.returncode}"
    said = iter(done.stdout.decode(errors="replace").splitlines())
    for wanted in wanted_of(lines):
        if wanted not in said:  # goes on behind the line that was found
            return f"does not say {wanted}"
    for name in re.findall(r"picture\.py .* (\S+\.png)$", "\n".join(lines), re.M):
        if not filecmp.cmp(f"{folder}/{name}", f"{TOP}/docs/{name}", shallow=False):
            return f"makes another picture than docs/{name}"
    return None


def main():
    if len(sys.argv) not in (2, 3):
        sys.exit(__doc__)
    folder = sys.argv[2] if len(sys.argv) == 3 else tempfile.mkdtemp(prefix="examples-")
    os.makedirs(folder, exist_ok=True)
    shutil.copy(sys.argv[1], f"{folder}/site_cli")
    data = f"{TOP}/crates/site_cli/data"
    for name in os.listdir(data):
        shutil.copy(f"{data}/{name}", folder)
    os.symlink(f"{TOP}/share", f"{folder}/share")
    wrong = 0
    for number, block in enumerate(blocks(f"{TOP}/docs/EXAMPLES.md"), 1):
        why = run_block(number, block, folder)
        print(f"block {number}: {why or 'as it stands'}", flush=True)
        wrong += why is not None
    if len(sys.argv) == 2:
        shutil.rmtree(folder)
    sys.exit(1 if wrong else 0)


main()

"""Follows docs/USING.md as another repository would: a clone of this one inside it, the files that the page shows, and `rt try` of each program."""

import os
import re
import shutil
import subprocess
import tempfile

TOP = os.path.dirname(os.path.dirname(os.path.realpath(__file__)))
PAGE = os.path.join(TOP, "docs", "USING.md")


def blocks_of(text, language):
    """What the page shows in its blocks of this language."""
    return re.findall(rf"^```{language}\n(.*?)^```$", text, re.DOTALL | re.MULTILINE)


def put(path, text):
    os.makedirs(os.path.dirname(path), exist_ok=True)
    with open(path, "w", encoding="utf-8") as file:
        file.write(text)


def crates_without_what_was_made(folder, names):
    return [name for name in names if name == "out" or os.path.islink(os.path.join(folder, name))]


def programs():
    """Each program that the page shows: the commands before it, its text, and what the page says that it prints."""
    with open(PAGE, encoding="utf-8") as file:
        text = file.read()
    before, *pieces = re.split(r"^(```rust\n.*?^```)$", text, flags=re.DOTALL | re.MULTILINE)
    for shown, behind in zip(pieces[::2], pieces[1::2]):
        (program,) = blocks_of(shown, "rust")
        made, _, told = re.split(r"^(    rt try)$", behind, maxsplit=1, flags=re.MULTILINE)
        commands = re.findall(r"^    (printf .*)$", before + made, re.MULTILINE)
        lines = re.findall(r"^    (\d.*)$", told, re.MULTILINE)
        yield commands, program, "".join(f"{line}\n" for line in lines)
        before = told


def printed():
    """What each of the page's programs prints, and what the page says that it prints."""
    with open(PAGE, encoding="utf-8") as file:
        (build,) = blocks_of(file.read(), "python")
    with tempfile.TemporaryDirectory(prefix="using-") as folder:
        subprocess.run(["git", "init", "-q", "."], cwd=folder, check=True)
        # as a clone has it: without what is made, and without links
        inside = os.path.join(folder, "zalkvorn")
        shutil.copytree(os.path.join(TOP, "crates"), os.path.join(inside, "crates"), ignore=crates_without_what_was_made)
        for name in ("crates.txt", "HANDLES"):
            shutil.copy(os.path.join(TOP, name), inside)
        put(os.path.join(folder, "app", "BUILD.bazel"), build)
        for commands, program, told in programs():
            for command in commands:
                subprocess.run(["bash", "-c", command], cwd=folder, check=True)
            put(os.path.join(folder, "app", "src", "main.rt"), program)
            done = subprocess.run(["rt", "try"], cwd=os.path.join(folder, "app"), stdin=subprocess.DEVNULL, capture_output=True, text=True, timeout=600)
            if done.returncode != 0:
                print(done.stderr)
            yield done.stdout, told


def tried():
    wrong = [found for found, told in printed() if not told or found != told]
    for found in wrong:
        print(f"docs/USING.md: rt try printed:\n{found}")
    return len(list(programs())) - len(wrong), len(wrong)


if __name__ == "__main__":
    print("{} passed, {} failed".format(*tried()))

"""What the tools that write cases of programs share: how a text stands in a case, and the files of a program's crate."""
import os
import sys

CRATES = os.path.join(os.path.dirname(os.path.abspath(__file__)), "..", "crates")


def escaped(text):
    for character, name in (("\\", "\\\\"), ("\n", "\\n"), ("\r", "\\r"), ("\t", "\\t")):
        text = text.replace(character, name)
    return text


def path(crate, name):
    """Where a file of cases stands."""
    return os.path.join(CRATES, crate, "data", name)


def write(crate, name, lines):
    """Writes a file of cases, and into its line of the crate's stdout how many there are: a line with a tab is a case. How many there are."""
    with open(path(crate, name), "w", encoding="utf-8", newline="") as file:
        file.write("\n".join(lines) + "\n")
    count = sum("\t" in line for line in lines)
    stdout = os.path.join(CRATES, crate, "stdout")
    with open(stdout, encoding="utf-8") as file:
        counted = file.read().splitlines()
    with open(stdout, "w", encoding="utf-8") as file:
        for line in counted:
            file.write(f"{name}: {count} cases\n" if line.startswith(f"{name}: ") else line + "\n")
    return count


def read(path):
    with open(path, encoding="utf-8") as file:
        return file.read()


def write_or_check(file, text, arguments, usage, stale):
    """Writes a file that a tool makes; with --check it writes nothing, and ends with this message where the file is another."""
    if arguments == ["--check"]:
        if read(file) != text:
            sys.exit(stale)
        return
    if arguments:
        sys.exit(usage)
    with open(file, "w", encoding="utf-8") as kept:
        kept.write(text)

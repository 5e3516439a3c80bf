"""Builds a program of this folder in a repository of its own, with the crates that it stands on."""
import os
import shutil
import subprocess
import sys

HERE = os.path.dirname(os.path.abspath(__file__))
ROOT = os.path.dirname(HERE)


def listed():
    """The crates of the repository, each with the libraries that it uses."""
    with open(os.path.join(ROOT, "crates.txt")) as file:
        lines = [line for line in file if ":" in line and not line.startswith("#")]
    return {name.split()[0]: libraries.split() for name, libraries in (line.split(":") for line in lines)}


def below(libraries):
    """The crates of the repository among these libraries and below them, lowest first."""
    crates, found = listed(), []

    def visit(name):
        if name in crates and name not in found:
            for other in crates[name]:
                visit(other)
            found.append(name)

    for name in libraries:
        visit(name)
    return found


def make_repository(folder, source, name, libraries):
    """Copies the program in bench/SOURCE as a crate of this name, and the crates below it. `rt` takes over what it has proved of
    the same sources in another folder."""
    crates = listed()
    for crate in below(libraries):
        shutil.copytree(os.path.join(ROOT, "crates", crate), os.path.join(folder, "crates", crate),
                        ignore=shutil.ignore_patterns("out", "must-fail"))
    program = os.path.join(folder, "crates", name)
    shutil.copytree(os.path.join(HERE, source), program)
    # Its files lie here as texts, since the gate reads each file of code or proofs as one of a crate.
    for place, _, names in os.walk(program):
        for file_name in names:
            if file_name.endswith(".txt"):
                os.rename(os.path.join(place, file_name), os.path.join(place, file_name[: -len(".txt")]))
    with open(os.path.join(folder, "crates.txt"), "w") as file:
        for crate in below(libraries):
            file.write(f"{crate}: {' '.join(crates[crate])}\n")
        file.write(f"{name}: {' '.join(libraries)}\n")
    subprocess.run(["git", "init", "-q", folder], check=True)


def built(folder, source, name, libraries):
    """The path of the program, which `rt run` proves and builds where it is not, with the crates below it where they are not."""
    program = os.path.join(folder, "crates", name)
    if not os.path.exists(program):
        make_repository(folder, source, name, libraries)
    # Called with no words most of the programs only tell of their use.
    ran = subprocess.run(["rt", "run"], cwd=program, stdout=subprocess.PIPE, stderr=subprocess.STDOUT, text=True)
    path = os.path.join(program, "out", name)
    if not os.path.exists(path):
        sys.exit(f"{ran.stdout}\nrt run built no program")
    return path


def run(command):
    """What a program writes, and the most memory that it had, in bytes."""
    process = subprocess.Popen(command, stdout=subprocess.PIPE, text=True)
    written = process.stdout.read()
    _, status, usage = os.wait4(process.pid, 0)
    process.returncode = os.waitstatus_to_exitcode(status)
    if process.returncode != 0:
        sys.exit(f"{command[0]} ended with {process.returncode}")
    return written.splitlines(), usage.ru_maxrss * 1024

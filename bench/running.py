"""Runs a program, and tells what that took; builds the program over libyaml."""
import collections
import os
import resource
import subprocess

MIB = 1024 * 1024
HERE = os.path.dirname(os.path.abspath(__file__))
# What one run took: seconds of the processor's time of program and system, peak memory in bytes, and the status, which is the
# signal below 0 where one ended the program.
Run = collections.namedtuple("Run", "seconds peak status")


def limiting(seconds, memory):
    """What a process calls to limit itself to so many seconds of the processor's time and to addresses of so many bytes. After the
    seconds SIGXCPU ends it."""

    def limit():
        resource.setrlimit(resource.RLIMIT_CPU, (seconds, seconds + 1))
        resource.setrlimit(resource.RLIMIT_AS, (memory, memory))
        resource.setrlimit(resource.RLIMIT_CORE, (0, 0))

    return limit


def run(command, limit=None, errors=subprocess.DEVNULL):
    """Runs a program once, in a fresh process. What it prints is dropped; what it says on standard error goes to `errors`. The peak is
    at least this process's own, since a process begins as a copy of it."""
    process = subprocess.Popen(command, stdout=subprocess.DEVNULL, stderr=errors, preexec_fn=limit)
    _, status, usage = os.wait4(process.pid, 0)
    process.returncode = os.waitstatus_to_exitcode(status)
    return Run(usage.ru_utime + usage.ru_stime, usage.ru_maxrss * 1024, process.returncode)


def built_parser(folder):
    """The path of the program over libyaml that reads a file's events and drops them."""
    program = os.path.join(folder, "parse")
    subprocess.run(["gcc", "-O2", "-o", program, os.path.join(HERE, "parse.c"), "-lyaml"], check=True)
    return program

"""Builds the programs that are measured and compared, and runs them."""

import os
import shutil
import subprocess
import sys
from pathlib import Path

BENCH = Path(__file__).resolve().parent
ROOT = BENCH.parent
OUT = BENCH / "out"
# the processor for which the proved programs are compiled
RUSTC = ["rustc", "--edition", "2021", "-C", "opt-level=3", "-C", "target-cpu=x86-64-v2"]


def compile_rust(name):
    """Compiles a program that is written by hand, and returns its path."""
    OUT.mkdir(exist_ok=True)
    program = OUT / name
    subprocess.run([*RUSTC, str(BENCH / name / "main.rs"), "-o", str(program)], check=True)
    return program


def prove_and_build(crate, arguments, given=b""):
    """Proves and builds a program crate and returns the program's path, or none where there is no such crate or no `rt`."""
    folder = ROOT / "crates" / crate
    if not (folder / "src" / "main.rt").is_file():
        print(f"there is no crate {crate}: it is left out", file=sys.stderr)
        return None
    if shutil.which("rt") is None:
        print(f"there is no command `rt` to build {crate} with: it is left out", file=sys.stderr)
        return None
    print(f"proving and building {crate}, where that has not been done", file=sys.stderr)
    said = subprocess.run(["rt", "run", "--", *arguments], cwd=folder, input=given, capture_output=True)
    program = folder / "out" / crate
    if said.returncode != 0 or not program.is_file():
        sys.stderr.buffer.write(said.stdout + said.stderr)
        sys.exit(f"{crate} was not built")
    return program


def build_replay():
    """The proved replay, or none where the repository has none."""
    return prove_and_build("replay", [], b"FWT\x00\x01Z")


def output_of(command, given=b""):
    """What a program writes. It must end with status 0."""
    done = subprocess.run(command, input=given, capture_output=True)
    if done.returncode != 0:
        raise RuntimeError(f"{command} ended with status {done.returncode}: {done.stderr.decode(errors='replace')}")
    return done.stdout


def processor_time(command, given):
    """The processor time, in seconds, that a program takes from its start to its end. `given` is an open file."""
    os.lseek(given, 0, os.SEEK_SET)
    nowhere = os.open(os.devnull, os.O_WRONLY)
    moves = [(os.POSIX_SPAWN_DUP2, given, 0), (os.POSIX_SPAWN_DUP2, nowhere, 1)]
    process = os.posix_spawn(command[0], command, os.environ, file_actions=moves)
    os.close(nowhere)
    _, status, usage = os.wait4(process, 0)
    if status != 0:
        raise RuntimeError(f"{command} ended with status {status}")
    return usage.ru_utime + usage.ru_stime


def instructions(command, given):
    """How many instructions a program takes from its start to its end, as callgrind counts them."""
    os.lseek(given, 0, os.SEEK_SET)
    watched = ["valgrind", "--tool=callgrind", "--callgrind-out-file=/dev/null", *command]
    done = subprocess.run(watched, stdin=given, stdout=subprocess.DEVNULL, stderr=subprocess.PIPE, text=True)
    for line in done.stderr.splitlines():
        if "Collected :" in line:
            return int(line.split(":")[1])
    raise RuntimeError(f"callgrind counted nothing: {done.stderr}")

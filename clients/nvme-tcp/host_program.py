"""Where the programs of this folder are, and how zalkvorn-host and zalkvorn-target are compiled."""

import os
import shutil
import subprocess

HERE = os.path.dirname(os.path.realpath(__file__))
TOP = os.path.dirname(os.path.dirname(HERE))
WORDS = ["-std=c11", "-D_POSIX_C_SOURCE=200809L", "-O2", "-Wall", "-Wextra", "-Werror", "-pthread", "-I", f"{TOP}/include"]
SANITIZED = ["-O1", "-g", "-fsanitize=address,undefined", "-fno-sanitize-recover=all"]
SOURCES = [f"{HERE}/{name}.c" for name in ("host", "controller", "queue", "list", "pdu")]
# Where these are installed there are no crates, and the programs are on the path.
IS_INSTALLED = not os.path.isfile(f"{TOP}/crates.txt")
NVQ = os.environ.get("NVQ") or (shutil.which("nvq") or "nvq" if IS_INSTALLED else f"{TOP}/nvq")


def compile_host(path, more=()):
    """Compiles zalkvorn-host to the path, where it isn't there as the sources now are."""
    newest = max(os.path.getmtime(f"{HERE}/{name}") for name in os.listdir(HERE) if name.endswith((".c", ".h")))
    if os.path.exists(path) and os.path.getmtime(path) > newest:
        return
    subprocess.run([os.environ.get("CC", "gcc"), *WORDS, *more, "-o", path, *SOURCES], check=True)


def host_in(folder):
    """Where zalkvorn-host is: on the path where it is installed, and else in the folder, as it is compiled now."""
    if IS_INSTALLED:
        return shutil.which("zalkvorn-host") or "zalkvorn-host"
    compile_host(f"{folder}/zalkvorn-host")
    return f"{folder}/zalkvorn-host"


def compile_target(path, library, more=()):
    """Compiles zalkvorn-target to the path, with the library for C."""
    sources = sorted(f"{HERE}/{name}" for name in os.listdir(HERE) if name.startswith("target") and name.endswith(".c"))
    kit = os.path.dirname(os.path.dirname(os.path.realpath(shutil.which("rt"))))
    subprocess.run([os.environ.get("CC", "gcc"), *WORDS, *more, "-o", path, *sources, f"{HERE}/pdu.c", library, f"{kit}/c/liblibc_c.a"], check=True)


def nvq_is_built():
    """Whether nvq is the proved program, or one that NVQ names: `./nvq` without ./build is slower, and has checks in the place of proofs."""
    return NVQ != f"{TOP}/nvq" or subprocess.run([f"{TOP}/build", "--is-built"]).returncode == 0

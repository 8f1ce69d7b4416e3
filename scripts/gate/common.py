"""What the scripts of this folder share that try a program."""

import os
import subprocess
import sys

ROOT = os.path.realpath(f"{os.path.dirname(os.path.realpath(__file__))}/../..")


def find_program(word=""):
    """Returns the path of the program that is handed on, or without one the working tree's, which is built where it is missing or old."""
    if word:
        return os.path.realpath(word)
    if subprocess.run([f"{ROOT}/cbor-edn", "--build"], check=False).returncode:
        sys.exit("the working tree's program can't be built")
    return f"{ROOT}/out/cbor-edn"

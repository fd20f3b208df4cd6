"""What the tests of `qrlabel` share: the proved program, cases in empty folders, and their sum."""

import os
import subprocess
import sys
import tempfile

ROOT = os.path.dirname(os.path.dirname(os.path.abspath(__file__)))
PROGRAM = f"{ROOT}/crates/qrlabel/out/qrlabel"
CASES = []


def case(test):
    CASES.append(test)
    return test


def run(*words, data=b"hello", **how):
    """Runs the program: its status, what it wrote, and what it said."""
    ran = subprocess.run([PROGRAM, *words], input=data, timeout=60,
                         **{"stdout": subprocess.PIPE, "stderr": subprocess.PIPE, **how})
    return ran.returncode, ran.stdout, (ran.stderr or b"").decode(errors="replace")


def main():
    if not os.path.exists(PROGRAM):
        print(f"{PROGRAM} is not there: run `rt ci`, or `rt run` in crates/qrlabel")
        print("0 passed, 1 failed")
        return 1
    passed = failed = 0
    for test in CASES:
        with tempfile.TemporaryDirectory() as room:
            os.chdir(room)
            try:
                test()
                fault = None
            except (AssertionError, OSError, subprocess.TimeoutExpired) as error:
                fault = f"{type(error).__name__}: {error}"
            os.chdir(ROOT)
        name = test.__name__.replace("_", " ")
        print(f"FAILED: {name}: {fault}" if fault else f"passed: {name}")
        passed, failed = passed + (not fault), failed + bool(fault)
    print(f"{passed} passed, {failed} failed")
    return 1 if failed else 0


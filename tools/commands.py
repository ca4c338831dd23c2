"""Runs the commands of the gate and shows their output."""
import os
import subprocess
import sys

import programs


def run_kit(words, folder, **variables):
    """Runs `rt` with these words in a folder and prints its output as it arrives. The process's own environment
    overrides the variables. Returns the exit status and the lines."""
    lines = []
    run = subprocess.Popen(['rt', *words], cwd=folder, env={**variables, **os.environ}, stdout=subprocess.PIPE, stderr=subprocess.STDOUT, text=True)
    for line in run.stdout:
        sys.stdout.write(line)
        sys.stdout.flush()
        lines.append(line)
    return run.wait(), lines


def run_scripts(paths):
    """Runs test scripts, which print their results. Returns how many passed and how many failed."""
    passed = failed = 0
    for path in paths:
        sys.stdout.flush()
        if subprocess.run([sys.executable, path], cwd=programs.TOP).returncode == 0:
            passed += 1
        else:
            failed += 1
    return passed, failed

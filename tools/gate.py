"""The gate: `rt ci` at the top of the repository. It fails where that fails, and where a must-fail edit is bad."""
import re
import subprocess
import sys


def main():
    bad = ""
    with subprocess.Popen(["rt", "ci"], stdout=subprocess.PIPE, stderr=subprocess.STDOUT, text=True, errors="replace") as run:
        for line in run.stdout:
            print(line, end="", flush=True)
            found = re.match(r"rt: ok\b.*, \d+ bad", line)
            bad = found[0] if found else bad
    if bad and run.returncode == 0:
        print("gate: an edit that shows nothing counts as a failure: " + bad, flush=True)
        return 1
    return run.returncode


if __name__ == "__main__":
    sys.exit(main())

"""What the tests of msgq.py share: they count, and go on behind one that fails."""

import os
import subprocess
import sys

HERE = os.path.dirname(os.path.abspath(__file__))
passed = failed = 0


def expect(found, expected, what):
    global passed, failed
    if found == expected:
        passed += 1
    else:
        failed += 1
        print(f"{what}: {found!r}, not {expected!r}", file=sys.stderr)


def refusal(call, *arguments, **more):
    """What a call raises: the number of an OSError, the type of any other, None where it raises nothing."""
    try:
        call(*arguments, **more)
    except OSError as error:
        return error.errno
    except Exception as error:
        return type(error)
    return None


def run(path, program, *flags, limit=20, folder=HERE, **settings):
    """The status of a program of Python (-9 where it did not end), what it wrote, and what it wrote of errors."""
    environment = {**os.environ, "PYTHONPATH": folder, "PYTHONWARNINGS": "", **settings}
    try:
        ended = subprocess.run([sys.executable, *flags, "-c", program, path], cwd=folder, env=environment, capture_output=True, text=True,
                               timeout=limit)
    except subprocess.TimeoutExpired as late:
        return -9, (late.stdout or b"").decode(), (late.stderr or b"").decode()
    return ended.returncode, ended.stdout, ended.stderr


def finish():
    print(f"{passed} passed, {failed} failed")
    sys.exit(failed > 0)

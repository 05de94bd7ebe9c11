"""What the tests of this folder in Python share: running a command, files of a test, and running the tests.

A test is a function that asserts, without arguments or with one that is made for it, such as a folder. `main` runs those that it is given, prints a line for each
that fails or is skipped, and last 'N passed, M failed'.
"""
import functools
import io
import os
import subprocess
import sys
import warnings

TOP = os.path.dirname(os.path.dirname(os.path.dirname(os.path.abspath(__file__))))


def run(folder, *words, **more):
    """What comes of a command in a folder, with more in the environment. A warning of Python ends a tool in Python."""
    return subprocess.run(words, cwd=folder, capture_output=True, text=True, stdin=subprocess.DEVNULL, env=dict(os.environ, PYTHONWARNINGS="error", **more))


@functools.lru_cache(None)
def code_of(path):
    """The code of a script in Python."""
    with open(path, encoding="utf-8") as file:
        return compile(file.read(), path, "exec")


def call(folder, name, *words, **more):
    """What comes of a small tool in a folder, with more in the environment, as `run` gives it. It runs in this process, which takes much less time than
    one of its own. A warning of Python ends it."""
    path, before = tool(name), (os.getcwd(), dict(os.environ), sys.argv, sys.stdout, sys.stderr, sys.path[:])
    out, err, status = io.TextIOWrapper(io.BytesIO(), "utf-8", newline=""), io.TextIOWrapper(io.BytesIO(), "utf-8", newline=""), 0
    try:
        os.chdir(folder)
        os.environ.update(more)
        sys.argv, sys.stdout, sys.stderr = [path, *words], out, err
        sys.path.insert(0, os.path.dirname(path))
        with warnings.catch_warnings():
            warnings.simplefilter("error")
            exec(code_of(path), {"__name__": "__main__", "__file__": path})
    except SystemExit as ended:
        status = ended.code if isinstance(ended.code, int) else 0 if ended.code is None else 1
    finally:
        os.chdir(before[0])
        os.environ.clear()
        os.environ.update(before[1])
        sys.argv, sys.stdout, sys.stderr, sys.path[:] = before[2:]
    for file in (out, err):
        file.flush()
    return subprocess.CompletedProcess([name, *words], status, out.buffer.getvalue().decode(), err.buffer.getvalue().decode())


def choose_program():
    """Has all that a test runs take one program: that of ITV, or the one that the launcher runs."""
    if not os.environ.get("ITV"):
        done = subprocess.run([os.path.join(TOP, "itv"), "--which"], stdout=subprocess.PIPE, text=True, stdin=subprocess.DEVNULL)
        os.environ["ITV"] = done.stdout.strip() or sys.exit("there is no program to test with")
    return os.environ["ITV"]


def tool(name):
    """The path of a tool."""
    return os.path.join(TOP, "tools", name)


def write(folder, name, text):
    """Writes a file, and the folders that it is in. Its path."""
    path = os.path.join(folder, name)
    os.makedirs(os.path.dirname(path), exist_ok=True)
    with open(path, "w", encoding="utf-8", newline="") as file:
        file.write(text)
    return path


def read(name, folder=TOP):
    """The text of a file."""
    with open(os.path.join(folder, name), encoding="utf-8", newline="") as file:
        return file.read()


def equal(found, wanted):
    """Fails with both values if they differ."""
    assert found == wanted, f"\n  found    {found!r}\n  expected {wanted!r}"


class Skipped(Exception):
    """Why a test can't be made on this machine."""


def main(tests, given=None):
    """Runs the tests, each with the value of the context that `given()` makes for it, if it is there. The exit status: 0 if none fails."""
    passed = failed = 0
    for test in tests:
        try:
            if given:
                with given() as value:
                    test(value)
            else:
                test()
            passed += 1
        except Skipped as why:
            print(f"skipped: {test.__name__.replace('_', ' ')}: {why}")
        except Exception as error:  # a test that stops in any way has failed
            failed += 1
            print(f"{test.__name__}: {type(error).__name__}: {error}")
    print(f"{passed} passed, {failed} failed")
    return 1 if failed else 0

"""The package's own tests: plain functions with asserts.

usage: python3 domlogic/tests/run.py [TEXT]
  Runs each function test_.. of each module test_.. beside this file (those whose name has the
  text), prints each that fails, and last how many passed and failed; the status is 1 if one failed.
"""
import importlib
import os
import sys
import traceback

sys.dont_write_bytecode = True  # the checkout stays as it is
HERE = os.path.dirname(os.path.abspath(__file__))
sys.path.insert(0, os.path.dirname(os.path.dirname(HERE)))


def tests(text: str) -> dict:
    """The functions by their names, modules in alphabetical order."""
    found = {}
    for file in sorted(os.listdir(HERE)):
        if file.startswith("test_") and file.endswith(".py"):
            module = importlib.import_module("domlogic.tests." + file[:-3])
            found.update((f"{file[:-3]}.{name}", it) for name, it in vars(module).items()
                         if name.startswith("test_") and callable(it))
    return {name: it for name, it in found.items() if text in name}


def main(words: list[str]) -> int:
    """Runs them and returns the status."""
    passed, failed = 0, 0
    for name, test in tests(words[0] if words else "").items():
        try:
            test()
            passed += 1
        except Exception:  # whatever it is, the other tests are run
            failed += 1
            print(f"{name}\n{traceback.format_exc()}", flush=True)
    print(f"{passed} passed, {failed} failed")
    return 1 if failed else 0


if __name__ == "__main__":
    sys.exit(main(sys.argv[1:]))

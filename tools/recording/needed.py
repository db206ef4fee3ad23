"""The packages that a recording needs, and how the tool ends where one of them, a program or an anchor is missing."""
import importlib.util
import sys

PACKAGES = {"dns": "python3-dnspython"}
LACKING = 4


def stop(text):
    print(f"tools/record: {text}", file=sys.stderr)
    sys.exit(LACKING)


missing = [package for module, package in PACKAGES.items() if importlib.util.find_spec(module) is None]
if missing:
    stop(f"needs {' and '.join(missing)} (Debian: apt-get install {' '.join(missing)})")

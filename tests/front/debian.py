"""Debian's packages that the tests need, installed where they are missing: python3 tests/front/debian.py brings all."""

import os
import shutil
import subprocess
from pathlib import Path

# Each package by the program that it brings, or by the library of Python.
PACKAGES = {
    "soffice": "libreoffice-calc", "chromium": "chromium", "pdftotext": "poppler-utils",
    "xlsxwriter": "python3-xlsxwriter",
}  # fmt: skip
LIBRARIES = Path("/usr/lib/python3/dist-packages")


def is_there(name):
    return shutil.which(name) or (LIBRARIES / name).is_dir()


def install(*names):
    missing = [PACKAGES[name] for name in names if not is_there(name)]
    if not missing:
        return
    print(f"installing {' '.join(missing)}, once", flush=True)
    quiet = {"stdout": subprocess.DEVNULL, "check": True, "env": os.environ | {"DEBIAN_FRONTEND": "noninteractive"}}
    subprocess.run(["apt-get", "update", "-q"], **quiet)
    subprocess.run(["apt-get", "install", "-y", "-q", "--no-install-recommends", *missing], **quiet)


if __name__ == "__main__":
    install(*PACKAGES)

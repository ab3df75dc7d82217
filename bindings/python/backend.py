"""Builds the wheel of this package, with the engine's shared objects inside.

    pip wheel --no-deps bindings/python          (pip calls it, by pyproject.toml)
    python3 bindings/python/backend.py FOLDER    writes the wheel into a folder, without pip

The shared objects are those in the folder that STROKES_LIB_DIR names, else those that pkg-config knows. This is a backend of
its own because no other is needed: it wants neither a network nor a package, and a wheel is an archive with four files beside
the package's own.
"""
import base64
import hashlib
import os
import pathlib
import re
import subprocess
import sys
import zipfile

HERE = pathlib.Path(__file__).resolve().parent
SHARED = ("libstrokes.so.1", "libstrokes_crew.so.1")
TAG = "py3-none-linux_x86_64"


def of_project(field):
    """A field of pyproject.toml's [project]. (Python 3.9 and 3.10 have nothing that reads that file.)"""
    return re.search(rf'^{field} = "(.*)"', (HERE / "pyproject.toml").read_text(encoding="utf-8"), re.M)[1]


def folder_of_library():
    if "STROKES_LIB_DIR" in os.environ:
        return pathlib.Path(os.environ["STROKES_LIB_DIR"])
    words = [os.environ.get("PKG_CONFIG", "pkg-config"), "--variable=libdir", "strokes-crew"]
    try:
        return pathlib.Path(subprocess.run(words, check=True, capture_output=True, text=True).stdout.strip())
    except (OSError, subprocess.CalledProcessError):
        sys.exit("libstrokes isn't found: let PKG_CONFIG_PATH name the folder of strokes-crew.pc, or STROKES_LIB_DIR that of libstrokes.so.1")


def contents(name):
    """What the wheel has, by its paths there."""
    library = folder_of_library()
    found = {f"strokes/{it.name}": it.read_bytes() for it in sorted((HERE / "strokes").iterdir()) if it.suffix in (".py", ".typed")}
    found |= {f"strokes/{it}": (library / it).read_bytes() for it in SHARED}
    found[f"{name}.dist-info/METADATA"] = (
        f"Metadata-Version: 2.1\nName: strokes\nVersion: {of_project('version')}\n"
        f"Summary: {of_project('description')}\nRequires-Python: {of_project('requires-python')}\n"
    ).encode()
    found[f"{name}.dist-info/WHEEL"] = f"Wheel-Version: 1.0\nGenerator: strokes\nRoot-Is-Purelib: false\nTag: {TAG}\n".encode()
    return found


def record(path, data):
    """The line of RECORD for a file."""
    digest = base64.urlsafe_b64encode(hashlib.sha256(data).digest()).rstrip(b"=").decode()
    return f"{path},sha256={digest},{len(data)}\n"


def build_wheel(wheel_directory, config_settings=None, metadata_directory=None):
    """Writes the wheel, and gives its name: what pip calls."""
    del config_settings, metadata_directory
    name = f"strokes-{of_project('version')}"
    files = contents(name)
    at = f"{name}.dist-info/RECORD"
    files[at] = ("".join(record(path, data) for path, data in files.items()) + f"{at},,\n").encode()
    with zipfile.ZipFile(pathlib.Path(wheel_directory, f"{name}-{TAG}.whl"), "w", zipfile.ZIP_DEFLATED) as wheel:
        for path, data in files.items():
            wheel.writestr(zipfile.ZipInfo(path, (1980, 1, 1, 0, 0, 0)), data, zipfile.ZIP_DEFLATED)
    return f"{name}-{TAG}.whl"


if __name__ == "__main__":
    if len(sys.argv) != 2:
        sys.exit(__doc__)
    print(build_wheel(sys.argv[1]))

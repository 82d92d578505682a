"""Makes the wheel of the package, for `pip install ./python` in a clone: the modules, and the C library and the JSON program of the release.

It needs nothing but Python, so that pip needs no network. MUIGRATU_BUILT names a folder with other programs in the place of the release's.
"""
import base64
import csv
import hashlib
import io
import os
import pathlib
import re
import subprocess
import zipfile

HERE = pathlib.Path(__file__).resolve().parent
TOP = HERE.parent
NAME = "muigratu"
BUILT = {"libmuigratu.so": 0o755, "muigratu_json": 0o755}
TAG = "py3-none-linux_x86_64"
METADATA = """Metadata-Version: 2.1
Name: muigratu
Version: {version}
Summary: Table joins and reshaping with a proof
License-File: LICENSE
Requires-Python: >=3.9

Joins and reshapes tables of Python by the programs of Muigratu, of which every function is proved.
"""
WHEEL = f"Wheel-Version: 1.0\nGenerator: muigratu_wheel\nRoot-Is-Purelib: false\nTag: {TAG}\n"
# A file of a wheel has a date of its own: the first that a zip can hold.
DAY = (1980, 1, 1, 0, 0, 0)


class CannotBuild(Exception):
    """Why there is no wheel, in one sentence."""


def shell(words):
    """Runs words of bash behind the functions of release/common."""
    begin = f'top="{TOP}"; . "$top/release/common"; '
    return subprocess.run(["bash", "-c", begin + words], capture_output=True, encoding="utf-8", check=False)


def version():
    commands = (TOP / "crates" / "tb_words" / "src" / "commands.rt").read_text()
    return re.search(r'\.version\("(.*)"\)', commands)[1]


def built_file(name):
    """The bytes of a file of the release."""
    if folder := os.environ.get("MUIGRATU_BUILT"):
        return pathlib.Path(folder, name).read_bytes()
    if fault := shell("needs_this_machine 'pip install'").stderr:
        raise CannotBuild(fault.strip())
    made = subprocess.run(["bash", "-c", f'top="{TOP}"; . "$top/release/common"; folder=$(mktemp -d); unpack {name} "$folder/it" && cat "$folder/it"; rm -rf "$folder"'], capture_output=True, check=False)
    if not made.stdout:
        raise CannotBuild(made.stderr.decode(errors="replace").strip() or f"the release has no {name}")
    return made.stdout


def files():
    """The path, the bytes and the mode of each file, without the list of them all."""
    about = f"{NAME}-{version()}.dist-info"
    for path in sorted((HERE / NAME).glob("*")):
        if path.suffix == ".py" or path.name == "py.typed":
            yield f"{NAME}/{path.name}", path.read_bytes(), 0o644
    for name, mode in BUILT.items():
        yield f"{NAME}/{name}", built_file(name), mode
    yield f"{about}/METADATA", METADATA.format(version=version()).encode(), 0o644
    yield f"{about}/WHEEL", WHEEL.encode(), 0o644
    yield f"{about}/LICENSE", (TOP / "LICENSE").read_bytes(), 0o644


def record(name, found):
    """The list of all files, with their checksums, and without one for itself."""
    text = io.StringIO()
    lines = csv.writer(text, lineterminator="\n")
    for path, data, _ in found:
        sum_of = base64.urlsafe_b64encode(hashlib.sha256(data).digest()).rstrip(b"=").decode()
        lines.writerow([path, f"sha256={sum_of}", len(data)])
    lines.writerow([name, "", ""])
    return name, text.getvalue().encode(), 0o644


def build_wheel(wheel_directory, config_settings=None, metadata_directory=None):
    """Makes the wheel in a folder, and returns its name."""
    name = f"{NAME}-{version()}-{TAG}.whl"
    found = list(files())
    with zipfile.ZipFile(pathlib.Path(wheel_directory, name), "w", zipfile.ZIP_DEFLATED) as wheel:
        for path, data, mode in [*found, record(f"{NAME}-{version()}.dist-info/RECORD", found)]:
            entry = zipfile.ZipInfo(path, DAY)
            entry.external_attr = (0o100000 | mode) << 16
            entry.compress_type = zipfile.ZIP_DEFLATED
            wheel.writestr(entry, data)
    return name


def build_sdist(sdist_directory, config_settings=None):
    raise CannotBuild("the package is installed from a clone, by pip install ./python")

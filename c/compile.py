"""compile.py BACKEND ARCHIVE: compiles muigratu_c by `llvm` or `rattle`, over the libraries that `rt ci` left.

`rt lib` would prove every crate below again, since `rt ci` leaves its libraries without the stamp that `rt lib` looks for.
"""
import importlib.machinery
import importlib.util
import os
import pathlib
import subprocess
import sys

ROOT = pathlib.Path(__file__).resolve().parent.parent
NAME = "muigratu_c"


def tool():
    """The part of the toolchain that knows how a crate is compiled."""
    kit = pathlib.Path(subprocess.run(["rt", "doc"], capture_output=True, text=True, check=True).stdout.strip()).parent
    loader = importlib.machinery.SourceFileLoader("rtlib", str(kit / "bin" / "rtlib.py"))
    module = importlib.util.module_from_spec(importlib.util.spec_from_loader("rtlib", loader))
    sys.modules["rtlib"] = module
    loader.exec_module(module)
    return module


def main(backend, archive):
    rtlib = tool()
    os.chdir(ROOT)
    rtlib.Crate.cuts_libraries = True
    crate = next(crate for crate in rtlib.crates_below(str(ROOT)) if crate.name == NAME)
    words = ["build", *crate.words(["--jobs", "2"], keeps=False), "--toolchain", f"{rtlib.KIT}/toolchain", "--backend", backend]
    return subprocess.run([rtlib.RATTLE, *words, "-o", archive], cwd=crate.folder, check=False).returncode


if __name__ == "__main__":
    if len(sys.argv) != 3:
        sys.exit(__doc__)
    sys.exit(main(sys.argv[1], os.path.abspath(sys.argv[2])))

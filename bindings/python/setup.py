"""Puts into the wheel the shared library that ./build leaves, and the extension module where there is a C compiler.

The library is taken from the folder that SMITHY_TRANSCODE_DIR names, or from the top of the repository.
"""
import os
import pathlib
import sys

from setuptools import Extension, setup
from setuptools.command.build_py import build_py

BINDINGS = pathlib.Path(__file__).resolve().parent.parent
LIBRARY = pathlib.Path(os.environ.get("SMITHY_TRANSCODE_DIR", BINDINGS.parent)) / "libsmithy_transcode.so"


class WithLibrary(build_py):
    def run(self):
        if not LIBRARY.exists():
            sys.exit(f"{LIBRARY} isn't there: run ./build, or name its folder by SMITHY_TRANSCODE_DIR")
        super().run()
        self.copy_file(str(LIBRARY), os.path.join(self.build_lib, "smithy_transcode", LIBRARY.name))


extension = Extension(
    "smithy_transcode._native",
    ["smithy_transcode/_native.c"],
    include_dirs=[str(BINDINGS / "c")],
    libraries=["dl"],
    py_limited_api=True,
    optional=True,
)
setup(cmdclass={"build_py": WithLibrary}, ext_modules=[extension])

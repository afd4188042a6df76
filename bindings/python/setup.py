"""Builds the package: compiles the loop in C where that can be done, and takes the shared library in where it was made."""

import re
import shutil
from pathlib import Path

from setuptools import Extension, setup
from setuptools.command.build_ext import build_ext
from setuptools.command.build_py import build_py

HERE = Path(__file__).resolve().parent
VERSION = re.search(r'__version__ = "(.*)"', (HERE / "zaqnuti/_version.py").read_text()).group(1)


class WithLibrary(build_py):
    """Puts target/lib's library beside the modules; without it the system's is used."""

    def run(self):
        super().run()
        made = HERE.parent.parent / "target/lib" / f"libzaqnuti.so.{VERSION}"
        if made.exists():
            shutil.copyfile(made, Path(self.build_lib) / "zaqnuti/libzaqnuti.so")


class WhereItCan(build_ext):
    """Compiles the loop; where that fails a loop in Python gives the same answers."""

    def run(self):
        try:
            super().run()
        except Exception as why:
            print(f"zaqnuti: the loop in C is not compiled: {why}")

    def get_export_symbols(self, ext):
        return ext.export_symbols


setup(
    ext_modules=[Extension("zaqnuti._epochs", ["loop.c"], optional=True, extra_compile_args=["-std=c99", "-O2"])],
    cmdclass={"build_py": WithLibrary, "build_ext": WhereItCan},
)

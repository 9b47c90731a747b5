"""Puts the built library into the package: libocc.so of OCC_LIBRARY, or what tools/build_c.py left in c/out. Where cffi is there, so is the
module of its short ways, which are built then."""
import os
import shutil

from setuptools import setup
from setuptools.command.build_py import build_py

HERE = os.path.dirname(os.path.abspath(__file__))
LIBRARY = os.environ.get("OCC_LIBRARY") or os.path.join(HERE, "..", "c", "out", "libocc.so")


class WithLibrary(build_py):
    def run(self):
        super().run()
        if not os.path.exists(LIBRARY):
            raise SystemExit(f"there is no {LIBRARY}: build it by `python3 tools/build_c.py`, or name another by OCC_LIBRARY")
        shutil.copy(LIBRARY, os.path.join(self.build_lib, "occ", "libocc.so"))


try:
    import cffi  # noqa: F401
    compiled = {"cffi_modules": ["occ_cffi.py:ffi"]}
except ImportError:
    compiled = {"has_ext_modules": lambda: True}
setup(cmdclass={"build_py": WithLibrary}, **compiled)

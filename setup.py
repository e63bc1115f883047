"""The library inside the package: proved and linked by python/build, and copied into what is installed."""
import shutil
import subprocess
from pathlib import Path

from setuptools import Distribution, setup
from setuptools.command.build_py import build_py

try:
    from setuptools.command.bdist_wheel import bdist_wheel
except ImportError:  # before setuptools 70.1
    from wheel.bdist_wheel import bdist_wheel

ROOT = Path(__file__).resolve().parent
LIBRARY = ROOT / "target" / "shared" / "libcicelybeam.so"


class BuildWithLibrary(build_py):
    def run(self) -> None:
        super().run()
        if shutil.which("rt"):
            subprocess.run([str(ROOT / "python" / "build")], check=True)
        if not LIBRARY.exists():
            raise SystemExit("the Rattle toolchain's command rt is missing, and target/shared/libcicelybeam.so is not there: see python/README.md")
        shutil.copy2(LIBRARY, Path(self.build_lib) / "cicelybeam")


class OfOneMachine(Distribution):
    def has_ext_modules(self) -> bool:
        """So that what is made is for this system and processor."""
        return True


class AnyPython(bdist_wheel):
    def get_tag(self) -> tuple:
        """For any Python 3: the library is loaded by ctypes."""
        return ("py3", "none", super().get_tag()[2])


setup(distclass=OfOneMachine, cmdclass={"build_py": BuildWithLibrary, "bdist_wheel": AnyPython})

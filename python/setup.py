"""Builds the wheel, which has the program inside. `./package --wheel` calls this; so does `pip install ./python`.

The program is the file `sixel` of this folder, or else dist/sixel. The package has its version. The name of the wheel
tells the machine that it is for, and the oldest C library.
"""

import os
import platform
import re
import subprocess
import sys
from pathlib import Path

from setuptools import Distribution, setup
from distutils.command.build_scripts import build_scripts

try:
    from setuptools.command.bdist_wheel import bdist_wheel
except ImportError:
    from wheel.bdist_wheel import bdist_wheel

HERE = Path(__file__).resolve().parent
PROGRAM = HERE / "sixel" if (HERE / "sixel").exists() else HERE.parent / "dist/sixel"


def version():
    here = f"{platform.system()} {platform.machine()}"
    if here != "Linux x86_64":
        sys.exit(f"sixel_check: the program is for Linux on x86-64, and this is {here}")
    try:
        return subprocess.run([PROGRAM, "--version"], capture_output=True, check=True, text=True).stdout.split()[1]
    except (OSError, subprocess.CalledProcessError) as fault:
        sys.exit(f"sixel_check: the program {PROGRAM} doesn't start here: {fault}")


def c_library():
    """The newest version of the C library whose functions the program takes."""
    return max((int(major), int(minor)) for major, minor in re.findall(rb"GLIBC_(\d+)\.(\d+)", PROGRAM.read_bytes()))


class WithProgram(Distribution):
    """Not the same on each machine, though no module is compiled."""

    def has_ext_modules(self):
        return True


class Wheel(bdist_wheel):
    def get_tag(self):
        return "py3", "none", "manylinux_{}_{}_x86_64".format(*c_library())


class Scripts(build_scripts):
    """Copies the program as it is: distutils takes scripts for text."""

    def run(self):
        self.mkpath(self.build_dir)
        target = os.path.join(self.build_dir, "sixel")
        self.copy_file(str(PROGRAM), target)
        os.chmod(target, 0o755)


setup(
    version=version(),
    scripts=[os.path.relpath(PROGRAM, HERE)],
    distclass=WithProgram,
    cmdclass={"bdist_wheel": Wheel, "build_scripts": Scripts},
)

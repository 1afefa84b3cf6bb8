"""The library in the wheel, and the machine that it is for. pyproject.toml says the rest."""

import os
import re
import shutil
import subprocess

from setuptools import setup
from setuptools.command.build_py import build_py
from setuptools.command.sdist import sdist
from setuptools.dist import Distribution

try:
    from setuptools.command.bdist_wheel import bdist_wheel
except ImportError:
    # before version 70 of setuptools
    from wheel.bdist_wheel import bdist_wheel

HERE = os.path.dirname(os.path.abspath(__file__))
PLACE = os.path.join('a2l', 'liba2l.so')


def library():
    """The library: that of a release, which is there already, or that of `make shared`."""
    places = [os.path.join(HERE, PLACE), os.path.join(HERE, os.pardir, 'out', 'liba2l.so')]
    found = [place for place in places if os.path.exists(place)]
    if not found:
        raise SystemExit('no liba2l.so: build it by `make shared`')
    return found[0]


def oldest_glibc():
    """The oldest version of glibc that has all symbols of the library, or None if readelf isn't there."""
    try:
        shown = subprocess.run(['readelf', '-V', library()], check=True, capture_output=True, text=True).stdout
    except (OSError, subprocess.CalledProcessError):
        return None
    return max((tuple(map(int, found)) for found in re.findall(r'\bGLIBC_(\d+)\.(\d+)', shown)), default=None)


class Binary(Distribution):
    """A distribution that is for one machine, since a library is in it."""

    def has_ext_modules(self):
        return True


class Build(build_py):
    """Puts the library into the package."""

    def run(self):
        super().run()
        shutil.copy(library(), os.path.join(self.build_lib, PLACE))


class Source(sdist):
    """Puts the library into the source distribution, of which a wheel can then be made anywhere."""

    def make_release_tree(self, base_dir, files):
        super().make_release_tree(base_dir, files)
        shutil.copy(library(), os.path.join(base_dir, PLACE))


class Wheel(bdist_wheel):
    """A wheel for every Python 3, since the library knows nothing of Python."""

    def get_tag(self):
        machine = super().get_tag()[2]
        glibc = oldest_glibc()
        if glibc and machine.startswith('linux_'):
            # pip knows no such tag before 2.5; PEP 600
            machine = 'manylinux_{}_{}_'.format(*max(glibc, (2, 5))) + machine[len('linux_'):]
        return ('py3', 'none', machine)


setup(distclass=Binary, cmdclass={'build_py': Build, 'sdist': Source, 'bdist_wheel': Wheel})

"""pip install . : the package, with the library linked into its shared object (./link, which proves it first where it is missing).

No network is needed with Debian's python3-setuptools and python3-wheel. The folder has to stand in its repository."""

import shutil
import subprocess
from pathlib import Path

from setuptools import Distribution, setup
from setuptools.command.build_py import build_py

HERE = Path(__file__).resolve().parent


class Linked(build_py):
    """The modules, and beside them the shared object, linked anew, and the notice of what the library was ported from."""

    def run(self) -> None:
        super().run()
        folder = Path(self.build_lib).resolve() / "brothanchor"
        folder.mkdir(parents=True, exist_ok=True)
        subprocess.run([str(HERE / "link"), str(folder / "_brothanchor.so")], check=True)
        shutil.copy(HERE.parent / "NOTICE", folder / "NOTICE")


class Native(Distribution):
    """Not the same on every machine."""

    def has_ext_modules(self) -> bool:
        return True


setup(
    packages=["brothanchor"],
    package_data={"brothanchor": ["py.typed"]},
    exclude_package_data={"brothanchor": ["_brothanchor.so"]},
    python_requires=">=3.9",
    install_requires=["numpy"],
    cmdclass={"build_py": Linked},
    distclass=Native,
)

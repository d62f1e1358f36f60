"""Makes a wheel for this platform: python3 setup.py bdist_wheel. The shared library lies in btree_range_map/, and beside this
file the page and the licence: bindings/package puts them there.

setuptools before 70.1 makes wheels by the package `wheel` alone, which need not be there, so the command is given here.
"""

import base64
import csv
import hashlib
import io
import pathlib
import re
import sysconfig
import zipfile

from setuptools import Command, setup


def tag():
    """The tag of the wheel: that of the oldest glibc that has all the library names, where it stands on glibc alone."""
    platform = sysconfig.get_platform().replace("-", "_").replace(".", "_")
    library = pathlib.Path("btree_range_map/libbtree_range_map.so").read_bytes()
    needed = {(int(major), int(minor)) for major, minor in re.findall(rb"\0GLIBC_(\d+)\.(\d+)", library)}
    if platform.startswith("linux_") and needed:
        # pip knows no older one
        major, minor = max(*needed, (2, 5))
        platform = f"manylinux_{major}_{minor}_{platform[len('linux_'):]}"
    return f"py3-none-{platform}"


TAG = tag()


class bdist_wheel(Command):
    """Puts the built package and its metadata into one archive."""

    user_options = [("dist-dir=", "d", "where the wheel is put")]

    def initialize_options(self):
        self.dist_dir = "dist"

    def finalize_options(self):
        pass

    def run(self):
        self.run_command("build_py")
        self.run_command("egg_info")
        built = pathlib.Path(self.get_finalized_command("build_py").build_lib)
        metadata = pathlib.Path(self.get_finalized_command("egg_info").egg_info, "PKG-INFO").read_bytes()
        name = f"{self.distribution.get_name().replace('-', '_')}-{self.distribution.get_version()}"
        files = [(str(it.relative_to(built)), it.read_bytes()) for it in sorted(built.rglob("*")) if it.is_file()]
        wheel = f"Wheel-Version: 1.0\nGenerator: setup.py\nRoot-Is-Purelib: false\nTag: {TAG}\n"
        files += [(f"{name}.dist-info/METADATA", metadata), (f"{name}.dist-info/WHEEL", wheel.encode())]
        files += [(f"{name}.dist-info/licenses/LICENSE", pathlib.Path("LICENSE").read_bytes())]
        record = io.StringIO()
        lines = csv.writer(record, lineterminator="\n")
        for path, data in files:
            digest = base64.urlsafe_b64encode(hashlib.sha256(data).digest()).rstrip(b"=").decode()
            lines.writerow([path, f"sha256={digest}", len(data)])
        lines.writerow([f"{name}.dist-info/RECORD", "", ""])
        files.append((f"{name}.dist-info/RECORD", record.getvalue().encode()))
        folder = pathlib.Path(self.dist_dir)
        folder.mkdir(parents=True, exist_ok=True)
        with zipfile.ZipFile(folder / f"{name}-{TAG}.whl", "w", zipfile.ZIP_DEFLATED) as archive:
            for path, data in files:
                archive.writestr(path, data)


setup(cmdclass={"bdist_wheel": bdist_wheel}, has_ext_modules=lambda: True)

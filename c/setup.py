"""Builds the package: its extension module for each Python from 3.11 on, over the library that cargo builds, and a
source distribution with cargo's workspace."""
import ast
import json
import os
import re
import shlex
import shutil
import subprocess
import sys
import sysconfig
import tempfile
from pathlib import Path

from setuptools import Extension, setup
from setuptools.command.build_ext import build_ext
from setuptools.command.sdist import sdist

try:
    from setuptools.command.bdist_wheel import bdist_wheel
except ImportError:
    from wheel.bdist_wheel import bdist_wheel

HERE = Path(__file__).resolve().parent
# A source distribution has a copy of the workspace. In the repository, it is the folder above.
WORKSPACE = next(it for it in (HERE / "workspace", HERE.parent) if (it / "Cargo.lock").exists())
LIBRARY = "libpeltzivar_c.a"
# The files of a wheel have this time, the first that a ZIP file can have, so that the same sources give the same wheel.
os.environ.setdefault("SOURCE_DATE_EPOCH", "315532800")


class BuildModule(build_ext):
    def build_extension(self, ext):
        compiler = shlex.split(os.environ.get("CC") or sysconfig.get_config_var("CC"))[0]
        for tool, name in (("cargo", "Rust 1.85 or later"), (compiler, "a C compiler")):
            shutil.which(tool) or sys.exit(f"{tool} is not found: install {name}")
        if not Path(sysconfig.get_path("include"), "Python.h").exists():
            sys.exit("Python.h is not found: install the headers of Python, in Debian python3-dev")
        remap = f"target.'cfg(all())'.rustflags = ['--remap-path-prefix={WORKSPACE}=peltzivar']"
        command = ["cargo", "build", "--release", "--locked", "--package=peltzivar-capi", "--message-format=json"]
        command += ["--config", WORKSPACE / "rust/capi/small.toml"]
        with tempfile.TemporaryDirectory() as target:
            command += ["--config", remap, "--target-dir", target]
            ran = subprocess.run(command, cwd=WORKSPACE, check=True, stdout=subprocess.PIPE)
            built = [it for line in ran.stdout.splitlines() for it in json.loads(line).get("filenames", ())]
            ext.extra_objects = [next(it for it in built if it.endswith(LIBRARY))]
            super().build_extension(ext)


class Wheel(bdist_wheel):
    def get_tag(self):
        """Returns the tag of the stable ABI, and of each Linux whose C library has what the module needs."""
        *python, platform = super().get_tag()
        library = Path(self.get_finalized_command("build_ext").get_ext_fullpath("peltzivar._peltzivar"))
        needed = re.findall(rb"GLIBC_2\.(\d+)", library.read_bytes() if library.exists() else b"")
        system = f"manylinux_2_{max(17, *map(int, needed))}_" if needed else "linux_"
        return *python, re.sub("^linux_", system, platform)


class SourceDistribution(sdist):
    def make_release_tree(self, base_dir, files):
        super().make_release_tree(base_dir, files)
        shutil.copytree(WORKSPACE / "rust", Path(base_dir, "workspace/rust"), ignore=shutil.ignore_patterns("target"))
        for name in ("Cargo.toml", "Cargo.lock"):
            shutil.copy(WORKSPACE / name, Path(base_dir, "workspace"))
        for name in ("peltzivar.h", "peltzivar_words.h"):
            shutil.copy(HERE / name, base_dir)


shutil.copy(WORKSPACE / "rust/LICENSE", HERE)
MODULE = Extension("peltzivar._peltzivar", ["peltzivar/_peltzivar.c"], include_dirs=["."], py_limited_api=True)
MODULE.extra_compile_args = ["-std=c11", "-g0", "-Wno-missing-field-initializers"]
MODULE.extra_link_args = ["-Wl,--gc-sections,--exclude-libs,ALL,-s"]
setup(
    long_description=ast.get_docstring(ast.parse((HERE / "peltzivar/__init__.py").read_text(encoding="utf8"))),
    long_description_content_type="text/plain",
    ext_modules=[MODULE],
    options={"bdist_wheel": {"py_limited_api": "cp311"}},
    cmdclass={"build_ext": BuildModule, "bdist_wheel": Wheel, "sdist": SourceDistribution},
)

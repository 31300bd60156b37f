"""Tests what `make install` and pip install, below a prefix with a blank: `make -C c check`."""
import os
import pathlib
import re
import shutil
import subprocess
import sys
import tempfile
import unittest
import zipfile

C = pathlib.Path(__file__).resolve().parent.parent
PAGE, PYTHON, README = ((C.parent / path).read_text() for path in ("docs/C.md", "docs/PYTHON.md", "README.md"))
INSTALL, BUILD, PACKAGES = re.findall(r"^```sh\n(.*?)^```", PAGE + PYTHON, re.M | re.S)
CMAKE = "cmake_minimum_required(VERSION 3.10)\nproject(it C)\nadd_executable(example example.c)\n"
CMAKE += re.search(r"((?:^    (?:find_package|target_link).*\n)+)", PAGE, re.M)[1]
VERSION = re.search('VERSION "(.*)"', (C / "peltzivar.h").read_text())[1]
WORD = "0x0000100000000000000000000000000C"
PROGRAM = "import peltzivar; print(peltzivar.Format.of(mantissa_radix=16), peltzivar.__file__)"
IMPORT = [sys.executable, "-B", "-c", PROGRAM]
NEEDS = "import setuptools, wheel, pip, ensurepip; assert int(setuptools.__version__.split('.')[0]) >= 66"
# The first Python that can build packages. Where another one is first in PATH, that of the system may have what it needs.
PYTHONS = filter(os.path.exists, (sys.executable, "/usr/bin/python3"))
PACKAGER = next((it for it in PYTHONS if not subprocess.run([it, "-c", NEEDS], capture_output=True).returncode), None)


class InFolder(unittest.TestCase):
    def setUp(self):
        self.folder = pathlib.Path(tempfile.mkdtemp())
        self.addCleanup(shutil.rmtree, self.folder)
        self.prefix = self.folder / "a home/.local"
        others = ("PELTZIVAR_LIBRARY", "PYTHONPATH", "MAKEFLAGS")
        self.environment = {name: value for name, value in os.environ.items() if name not in others}
        self.environment |= {"PKG_CONFIG_PATH": f"{self.prefix}/lib/pkgconfig", "LD_LIBRARY_PATH": f"{self.prefix}/lib"}

    def run_in(self, *command, **options):
        options = {"cwd": self.folder, "env": self.environment, **options}
        ran = subprocess.run(command, capture_output=True, text=True, **options)
        self.assertEqual(ran.returncode, 0, (command, ran.stdout, ran.stderr))
        return ran.stdout


class Install(InFolder):
    def make(self, *arguments, folder=C, **options):
        return self.run_in("make", "-s", "-C", folder, *arguments, **options)

    @unittest.skipUnless(shutil.which("pkg-config"), "pkg-config")
    def test_a_program_is_built_by_the_lines_of_the_pages(self):
        self.environment |= {"HOME": str(self.prefix.parent), "RUSTUP_HOME": os.environ.get("RUSTUP_HOME", os.path.expanduser("~/.rustup"))}
        for lines in (INSTALL, *re.findall(r"^\| C \| `(.*?)`", README, re.M)):
            self.run_in("bash", "-ec", lines, cwd=C.parent)
        shutil.copy(C / "example.c", self.folder)
        self.assertEqual(self.run_in("bash", "-ec", BUILD), "15\n")
        self.assertEqual(self.run_in("./example", "radix=8", input="17\n"), "15\n")
        self.assertEqual(self.run_in("pkg-config", "--modversion", "peltzivar"), f"{VERSION}\n")
        moved = ["pkg-config", "--define-variable=prefix=/moved", "--variable=libdir", "peltzivar"]
        self.assertEqual(self.run_in(*moved), "/moved/lib\n")
        # A tree that is moved is found where it is.
        self.make("install", f"PREFIX={self.folder}/tree", f"LIBDIR={self.folder}/tree/lib/of/this")
        self.folder.joinpath("tree").rename(self.folder / "moved")
        self.environment |= {"PKG_CONFIG_PATH": f"{self.folder}/moved/lib/of/this/pkgconfig", "LD_LIBRARY_PATH": f"{self.folder}/moved/lib/of/this"}
        self.run_in("bash", "-ec", f"rm -rf '{self.prefix}' example; cc example.c $(pkg-config --cflags --libs peltzivar) -o example")
        self.assertEqual(self.run_in("./example", "radix=8", input="17\n"), "15\n")

    @unittest.skipUnless(shutil.which("cmake"), "cmake")
    def test_cmake_finds_the_package_wherever_its_parts_are(self):
        shutil.copy(C / "example.c", self.folder)
        for kind, *paths in (("shared",), ("static", f"INCLUDEDIR={self.prefix}/headers", f"LIBDIR={self.prefix}/lib/of this")):
            self.make("install", f"PREFIX={self.prefix}", *paths)
            moved = self.prefix.rename(self.prefix.parent / "moved here")
            self.folder.joinpath("CMakeLists.txt").write_text(CMAKE.replace("shared", kind))
            root = "/lib/of this/cmake/peltzivar" if paths else ""
            self.run_in("bash", "-ec", f"rm -rf example CMakeCache.txt; cmake '-DCMAKE_PREFIX_PATH={moved}{root}' . && make")
            self.assertEqual(self.run_in("./example", "radix=8", input="17\n"), "15\n")
            shutil.rmtree(moved)

    @unittest.skipUnless(shutil.which("cmake"), "cmake")
    def test_cmake_finds_the_versions_that_its_own_rule_allows(self):
        major, minor, patch = map(int, VERSION.split("."))
        near = [f"{major + one}{rest}" for one in (-1, 0, 1) for rest in ("", f".{minor}", f".{minor}.{patch}", f".{minor}.{patch + 1}", f".{minor + 1}")]
        ranks = {it: [*map(int, it.split(".")), 0, 0][:3] for it in near}
        ranges = ((a, b) for a in near for b in near if ranks[a] < ranks[b])
        wanted = [*near, "", *(f"{it} EXACT" for it in near), *(f"{a}...{mark}{b}" for a, b in ranges for mark in ("", "<"))]
        self.make("install", f"PREFIX={self.prefix}")
        self.folder.joinpath("CMakeLists.txt").write_text(f"""cmake_minimum_required(VERSION 3.10)
project(it C)
include(CMakePackageConfigHelpers)
write_basic_package_version_file(other/other-config-version.cmake VERSION {VERSION} COMPATIBILITY SameMajorVersion)
file(WRITE ${{CMAKE_BINARY_DIR}}/other/other-config.cmake "")
foreach(wanted "{'" "'.join(wanted)}")
  string(REPLACE " " ";" arguments "${{wanted}}")
  foreach(name peltzivar other)
    unset(${{name}}_DIR CACHE)
    find_package(${{name}} ${{arguments}} CONFIG QUIET)
    message("found ${{name}} ${{${{name}}_FOUND}} ${{wanted}}")
  endforeach()
endforeach()
""")
        printed = self.run_in("bash", "-c", f"cmake '-DCMAKE_PREFIX_PATH={self.prefix};{self.folder}/other' . 2>&1")
        found = {name: re.findall(rf"^found {name} (\d) (.*)$", printed, re.M) for name in ("peltzivar", "other")}
        self.assertEqual(found["peltzivar"], found["other"])

    @unittest.skipUnless(PACKAGER, "setuptools 66 and wheel")
    def test_a_package_says_in_a_line_what_is_missing(self):
        shutil.copytree(C.parent, top := self.folder / "copy", ignore=shutil.ignore_patterns(".git", "crates", "target", "*.so*"))
        for variables, sentence in (({"PATH": "/none"}, "cargo is not found: install Rust"), ({"CC": "no-cc"}, "no-cc is not found: install a C compiler")):
            ran = subprocess.run([PACKAGER, "setup.py", "build_ext"], cwd=top / "c", env=self.environment | variables, capture_output=True, text=True)
            self.assertRegex(ran.stderr.splitlines()[-1], f"^{sentence}")

    def test_python_finds_the_module_below_the_prefix(self):
        self.make("install", f"PREFIX={self.prefix}")
        (module,) = self.prefix.glob("lib/python3.*/site-packages/peltzivar/__init__.py")
        self.assertTrue(module.with_name("py.typed").exists())
        del self.environment["LD_LIBRARY_PATH"]
        self.environment["PYTHONPATH"] = str(module.parent.parent)
        self.assertEqual(self.run_in(*IMPORT), f"{WORD} {module}\n")

    def test_cargo_alone_builds_the_archive(self):
        build, compile_it = re.search(r"`(cargo build .*?)`.*?`(cc .*?)`", PAGE, re.S).groups()
        self.environment.pop("CARGO_TARGET_DIR", None)
        for command in (build, f"{compile_it} -o '{self.folder}/example'"):
            self.run_in("bash", "-c", command, cwd=C.parent)
        self.assertEqual(self.run_in("./example", "radix=8", input="17\n"), "15\n")

    def test_uninstall_removes_what_install_wrote_without_cargo_and_for_all_users(self):
        paths = ["PREFIX=/usr/my own", "LIBDIR=/usr/my own/lib here", "INCLUDEDIR=/usr/my own/headers", f"DESTDIR={self.folder}/a root"]
        self.make("uninstall", *paths)
        self.make("install", *paths, "CARGO=no-cargo", umask=0o077)
        root = self.folder / "a root/usr/my own"
        modes = {str(it.relative_to(root)): it.stat().st_mode & 0o777 for it in root.rglob("*") if not it.is_dir()}
        self.assertEqual({mode for path, mode in modes.items() if ".so" not in path}, {0o644}, modes)
        self.assertEqual({mode for path, mode in modes.items() if ".so" in path}, {0o755}, modes)
        names = {"headers/peltzivar.h", "headers/peltzivar_words.h", "lib here/libpeltzivar_c.a", "share/doc/peltzivar/LICENSE"}
        names |= {f"share/doc/peltzivar/{it}.md" for it in ("FORMAT", "FORMS", "EXPLANATIONS", "SETTINGS")}
        self.assertEqual(names - set(modes), set())
        written = (root / "lib here/pkgconfig/peltzivar.pc").read_text()
        self.assertRegex(written, r"\Aprefix=/usr/my own\nlibdir=\${prefix}/lib here\nincludedir=\${prefix}/headers\n")
        links = [it for it in root.rglob("*") if it.is_symlink()]
        self.assertEqual([it.exists() and "/" not in os.readlink(it) for it in links], [True, True])
        foreign = {root / path / "foreign" for path in {os.path.dirname(it) for it in modes}}
        for it in foreign:
            it.touch()
        self.make("uninstall", *paths)
        self.assertEqual({it for it in root.rglob("*") if not it.is_dir()}, foreign)

    def test_without_python_the_rest_is_installed_and_tested(self):
        line = r"^no-python 3.11 or later with Python.h is not found: [^\n]* left out\n$"
        self.assertRegex(self.make("install", f"PREFIX={self.prefix}", "PYTHON=no-python"), line)
        self.assertEqual([*self.prefix.rglob("*.py")], [])
        ran = self.make("check", "PYTHON=no-python").replace("the Python module is", "tests/*.py are").splitlines()
        self.assertRegex(f"{ran[0]}\n" * ({*ran} == {ran[0]}), line)

    def test_a_missing_library_and_a_newer_source_of_any_folder_are_built_before_they_are_installed(self):
        install = ["install", f"PREFIX={self.prefix}", f"BUILD={self.folder}/build"]
        self.assertRaisesRegex(AssertionError, "no-cargo is not found: install Rust", self.make, *install, "CARGO=no-cargo")
        others = ".git", "crates", "target", "compare", "explorer", "bench", "*.so*"
        shutil.copytree(C.parent, top := self.folder / "copy", ignore=shutil.ignore_patterns(*others))
        cargo, built = self.folder / "cargo", self.folder / "build/release"
        cargo.write_text(f"#!/bin/sh\nfor it in a so; do echo >> '{built}/libpeltzivar_c.'$it; done\n")
        cargo.chmod(0o755), built.mkdir(parents=True)
        sources = [it for folder in ("rust/src", "rust/capi/src") for it in top.joinpath(folder).rglob("*.rs")]
        sources = [*{it.parent: it for it in sources}.values(), *(it for it in top.glob("rust/capi/*.*") if it.is_file())]
        for builds, source in enumerate([None, None, top / "Cargo.toml", top / "rust/Cargo.toml", *sources]):
            _ = source and source.touch()
            self.make(*install, f"CARGO={cargo}", "PYTHON=", folder=top / "c")
            installed = [it.stat().st_size for it in self.prefix.glob("lib/libpeltzivar_c.[as]*")]
            self.assertEqual({*installed}, {builds or 1}, source)

    def test_a_prefix_that_is_relative_or_needs_quotes_is_refused(self):
        for prefix in ("relative", *(f"/a{it}b" for it in ("'", '"', "`", "\\", "#", "$$"))):
            with self.assertRaisesRegex(AssertionError, "PREFIX must be an absolute path|must have none of"):
                self.make("install", f"PREFIX={prefix}", f"DESTDIR={self.folder}/")


@unittest.skipUnless(PACKAGER, "pip, venv, setuptools 66 and wheel")
class Package(InFolder):
    def build(self, what, source):
        """Builds a wheel or a source distribution, and returns its path."""
        code = f"import setuptools.build_meta as it; print(it.build_{what}('..'))"
        return source.parent / self.run_in(PACKAGER, "-c", code, cwd=source).splitlines()[-1]

    def test_packages_of_a_copy_of_the_checkout(self):
        checkout = self.folder / "a copy/c"
        shutil.copytree(C.parent, checkout.parent, ignore=shutil.ignore_patterns(".git", "crates", "target", "build", "*.so*"))
        wheel = self.build("wheel", checkout)
        shutil.unpack_archive(self.build("sdist", checkout), self.folder / "sources")
        (source,) = self.folder.glob("sources/*")
        self.assertEqual(self.build("wheel", source).read_bytes(), wheel.read_bytes())
        with zipfile.ZipFile(wheel) as opened:
            files = {name.rpartition("/")[2]: opened.read(name) for name in opened.namelist()}
        self.assertEqual((files["py.typed"], files["LICENSE"]), (b"", (C.parent / "LICENSE").read_bytes()))
        entries = ["License: MIT", "Classifier: Typing :: Typed", "Requires-Python: >=3.11", "", ".* >>> from peltzivar import Syntax, languages"]
        self.assertRegex(files["METADATA"].decode(), "(?ms)" + ".*".join(f"^{it}$" for it in entries))
        self.assertRegex(wheel.name, f"-cp311-abi3-manylinux_2_17_{os.uname().machine}.whl$")
        # Without a network, pip gets from the system what it would fetch.
        paths = f"{checkout.parent}/environment/bin:{os.environ['PATH']}"
        self.environment |= {"PIP_NO_INDEX": "1", "PIP_NO_BUILD_ISOLATION": "0", "PATH": paths}
        for command in dict.fromkeys([PACKAGES, *re.findall("`(pip install .*?)`", README + PYTHON)]):
            self.run_in("bash", "-ec", f"python3() {{ '{PACKAGER}' \"$@\"; }}; {command}", cwd=checkout.parent)
            folder = checkout if "install -e" in command else ".*/site-packages"
            self.assertRegex(self.run_in("python", *IMPORT[1:]), f"^{WORD} {folder}/peltzivar/__init__.py$")
            modules = "import pkgutil, peltzivar; print(*(it.name for it in pkgutil.iter_modules(peltzivar.__path__)))"
            self.assertEqual(self.run_in("python", "-B", "-c", modules), "_peltzivar words\n")
        self.assertFalse([*checkout.parent.rglob("target")])


if __name__ == "__main__":
    unittest.main()

"""What people get who don't clone: installed into an empty folder and used from there, taken out again; the packages, made twice."""
import hashlib
import importlib.machinery
import importlib.util
import json
import os
import re
import shutil
import subprocess
import sys
import tempfile
import unittest
import zipfile

import runs
import test_web

# The system's own folders: no kit is on this path.
BARE = "/usr/bin:/bin"
C_PROGRAM = """\
#include <stdio.h>
#include <jatshegi.h>

int main(void) {
    static struct jatshegi_keys keys;
    struct jatshegi_board board = JATSHEGI_NO_BOARD;
    struct jatshegi_move moves[JATSHEGI_MOST_MOVES];
    size_t count;
    bool added;
    jatshegi_keys_fill(&keys);
    if (jatshegi_board_new(&keys, &board) != JATSHEGI_OK) return 1;
    jatshegi_board_play_text(&board, "e4", 2, &added);
    jatshegi_board_moves(&board, moves, JATSHEGI_MOST_MOVES, &count);
    printf("%s %zu\\n", JATSHEGI_VERSION, count);
    jatshegi_board_free(&board);
    return 0;
}
"""
GAMES = '[White "a"]\n\n1. e4 e5 *\n\n[White "b"]\n\n1. e5 *\n\n[White "c"]\n\n1. f3 e5 2. g4 Qh4# 1-0\n'


def module(name):
    """A script of tools/ as a module."""
    loader = importlib.machinery.SourceFileLoader(name, f"{runs.TOP}/tools/{name}")
    loaded = importlib.util.module_from_spec(importlib.util.spec_from_loader(name, loader))
    loader.exec_module(loaded)
    return loaded


def called(*words, **also):
    """Runs a command outside the repository, without the kit on its path."""
    also = {"cwd": "/", "capture_output": True, "text": True, "timeout": runs.MOST_SECONDS} | also
    also["env"] = {"PATH": BARE, "HOME": "/nonexistent"} | also.get("env", {})
    return subprocess.run(words, **({} if "input" in also else {"stdin": subprocess.DEVNULL}), **also)


def make(*words):
    ran = called("make", "-C", runs.TOP, *words)
    if ran.returncode:
        raise AssertionError(ran.stdout + ran.stderr)
    return ran.stdout


def copied(to):
    """A copy of what an install and the packages need of the clone."""
    return shutil.copytree(runs.TOP, to, ignore=shutil.ignore_patterns("crates", ".git", "out"), symlinks=True)


def spoil(path):
    with open(path, "ab") as file:
        file.write(b"\0")


def package_of(laid):
    """The folder of the Python package among the paths that an install prints."""
    return next(os.path.dirname(os.path.dirname(it)) for it in laid.splitlines() if it.endswith("/jatshegi/__init__.py"))


def paths_below(folder):
    return sorted(os.path.relpath(f"{at}/{name}", folder) for at, folders, names in os.walk(folder) for name in names + folders)


class Used(unittest.TestCase):
    """What is installed somewhere answers, by each of its ways."""

    def setUp(self):
        folder = tempfile.TemporaryDirectory(ignore_cleanup_errors=True)
        self.addCleanup(folder.cleanup)
        self.folder = folder.name

    def wants(self, tool):
        if not shutil.which(tool):
            self.skipTest(f"{tool} is not on the path")

    def assert_programs(self, folder):
        ran = called(f"{folder}/chess", "board", input="new\nplay e4\nfen\n")
        self.assertEqual((ran.returncode, ran.stdout), (0, "ok\nok\nrnbqkbnr/pppppppp/8/8/4P3/8/PPPP1PPP/RNBQKBNR b KQkq e3 0 1\n"))
        ran = called(f"{folder}/chess_games", input=GAMES)
        self.assertEqual((ran.returncode, ran.stdout.count("[Event"), ran.stderr), (2, 2, "game 2: fault 41 3 Move\n"))
        ran = called(f"{folder}/arbiter", "--findings", "--format", "jsonl", input=GAMES)
        rows = [json.loads(line) for line in ran.stdout.splitlines()]
        self.assertEqual([(row["number"], row["white"], row["agrees"]) for row in rows], [(2, "b", True), (3, "c", False)])
        ran = called(f"{folder}/perft", input="3 rnbqkbnr/pppppppp/8/8/8/8/PPPPPPPP/RNBQKBNR w KQkq - 0 1\n")
        self.assertEqual(ran.stdout, "8902\n")
        ran = called(f"{folder}/jatshegi", input="position startpos moves f2f3 e7e5 g2g4\ngo depth 1\n")
        self.assertEqual((ran.returncode, ran.stdout.splitlines()[-1]), (0, "bestmove d8h4"))
        for name in ("chess", "jatshegi", "chess_games", "arbiter", "perft"):
            self.assertEqual(called(f"{folder}/{name}", "--version").stdout, f"{name} {runs.VERSION}\n")
            self.assertIn(f"Jatshegi {runs.VERSION}", called(f"{folder}/{name}", "--help").stdout)

    def assert_links(self, library):
        self.wants("pkg-config")
        find = {"env": {"PKG_CONFIG_PATH": f"{library}/pkgconfig"}}
        self.assertEqual(called("pkg-config", "--modversion", "jatshegi", **find).stdout.strip(), runs.VERSION)
        words = called("pkg-config", "--cflags", "--libs", "jatshegi", **find).stdout.split()
        with open(f"{self.folder}/program.c", "w", encoding="utf-8") as file:
            file.write(C_PROGRAM)
        for link in (words, [it for it in words if it != "-ljatshegi"] + ["-l:libjatshegi.a"]):
            made = called("cc", "-std=c11", "-Wall", "-Werror", f"{self.folder}/program.c", "-o", f"{self.folder}/program", *link)
            self.assertEqual(made.returncode, 0, made.stderr)
            ran = called(f"{self.folder}/program", env={"LD_LIBRARY_PATH": library})
            self.assertEqual(ran.stdout, f"{runs.VERSION} 20\n", ran.stderr)

    def assert_imports(self, folder):
        words = "import jatshegi; board = jatshegi.Board(); board.push_san('e4'); print(jatshegi.__version__, len(board.legal_moves), jatshegi.__file__)"
        ran = called(sys.executable, "-c", words, env={"PYTHONPATH": folder})
        self.assertEqual(ran.stdout.split(), [runs.VERSION, "20", f"{folder}/jatshegi/__init__.py"], ran.stderr)


class Installed(Used):
    def test_installed_used_and_taken_out(self):
        there = f"{self.folder}/there"
        os.mkdir(there)
        laid = make("install", f"PREFIX={there}")
        files = sorted(os.path.relpath(it, there) for it in laid.splitlines() if it.startswith("/"))
        self.assertEqual(files, [it for it in paths_below(there) if not os.path.isdir(f"{there}/{it}") or os.path.islink(f"{there}/{it}")])
        # (ldconfig doesn't look there)
        self.assertNotIn("`ldconfig`", laid)
        with open(f"{there}/lib/pkgconfig/jatshegi.pc", encoding="utf-8") as found, open(f"{runs.TOP}/DESCRIPTION", encoding="utf-8") as kept:
            self.assertIn(f"\nDescription: {kept.read()}", found.read())
        self.assert_programs(f"{there}/bin")
        self.assert_links(f"{there}/lib")
        self.assert_imports(package_of(laid))
        make("uninstall", f"PREFIX={there}")
        self.assertEqual(paths_below(there), [])

    def test_below_another_folder_and_beside_others(self):
        there = f"{self.folder}/there"
        os.makedirs(f"{there}/usr/bin")
        with open(f"{there}/usr/bin/other", "w", encoding="utf-8"):
            pass
        for _ in range(2):
            make("install", "PREFIX=/usr", f"DESTDIR={there}")
        self.assert_programs(f"{there}/usr/bin")
        with open(f"{there}/usr/share/jatshegi/installed", encoding="utf-8") as file:
            self.assertNotIn(there, file.read())
        make("uninstall", "PREFIX=/usr", f"DESTDIR={there}")
        self.assertEqual(paths_below(there), ["usr", "usr/bin", "usr/bin/other"])

    def test_what_was_imported_is_taken_out(self):
        there = f"{self.folder}/there"
        os.mkdir(there)
        package = package_of(make("install", f"PREFIX={there}"))
        self.assert_imports(package)
        self.assertTrue(os.path.exists(f"{package}/jatshegi/__pycache__"))
        make("uninstall", f"PREFIX={there}")
        self.assertEqual(paths_below(there), [])

    def test_without_the_release_it_is_taken_out(self):
        there, top = f"{self.folder}/there", copied(f"{self.folder}/clone")
        os.mkdir(there)
        make("install", f"PREFIX={there}")
        shutil.rmtree(f"{top}/release")
        ran = called("make", "-C", top, "uninstall", f"PREFIX={there}")
        self.assertEqual((ran.returncode, ran.stderr, paths_below(there)), (0, "", []))
        ran = called("make", "-C", top, "uninstall", f"PREFIX={there}")
        self.assertNotEqual(ran.returncode, 0)
        self.assertIn(f"there is no list {there}/share/jatshegi/installed", ran.stderr)

    def test_below_links_to_folders_it_is_taken_out(self):
        there = f"{self.folder}/there"
        for name in ("lib", "share"):
            os.makedirs(f"{there}/elsewhere/{name}")
            os.symlink(f"elsewhere/{name}", f"{there}/{name}")
        before = paths_below(there)
        self.assert_imports(package_of(make("install", f"PREFIX={there}")))
        # (and one that becomes a link after the install)
        os.rename(f"{there}/bin", f"{there}/elsewhere/bin")
        os.symlink("elsewhere/bin", f"{there}/bin")
        make("uninstall", f"PREFIX={there}")
        self.assertEqual(paths_below(there), sorted([*before, "bin", "elsewhere/bin"]))

    def test_folders_that_were_there_stay(self):
        there = f"{self.folder}/there"
        for name in ("bin", "share/man/man1"):
            os.makedirs(f"{there}/{name}")
        before = paths_below(there)
        for _ in range(2):
            make("install", f"PREFIX={there}")
        make("uninstall", f"PREFIX={there}")
        self.assertEqual(paths_below(there), before)

    def test_python_and_zsh_look_there(self):
        """Of the default, of Debian's packages, and of a user's own folder."""
        looks = called("python3", "-c", "import site; print(*site.getsitepackages())").stdout.split()
        if "/usr/local/lib/python3" not in " ".join(looks):
            self.skipTest("this Python looks for nothing in /usr/local")
        for prefix, zsh in (("/usr/local", "site-functions"), ("/usr", "vendor-completions")):
            laid = make("install", f"PREFIX={prefix}", f"DESTDIR={self.folder}/there")
            self.assertIn(package_of(laid).removeprefix(f"{self.folder}/there"), looks)
            self.assertIn(f"{self.folder}/there{prefix}/share/zsh/{zsh}/_chess", laid.splitlines())
        ran = called("make", "-C", runs.TOP, "install", f"PREFIX={self.folder}/.local", env={"HOME": self.folder})
        self.assertEqual(ran.returncode, 0, ran.stderr)
        ran = called("python3", "-c", "import jatshegi; print(jatshegi.__file__)", env={"HOME": self.folder})
        self.assertTrue(ran.stdout.startswith(f"{self.folder}/.local/lib/"), ran.stderr)

    def test_links_of_the_installed_pages(self):
        """They lead to an installed page, or to what a clone alone has: the sources, the tools, the suite and the examples."""
        there = f"{self.folder}/there"
        make("install", f"PREFIX={there}")
        top = f"{there}/share/doc/jatshegi"
        pages = [it for it in paths_below(top) if it.endswith(".md")]
        self.assertGreater(len(pages), 20)
        for page in pages:
            with open(f"{top}/{page}", encoding="utf-8") as file:
                for target in re.findall(r"\]\(([^)#\s]+)[^)]*\)", file.read()):
                    path = os.path.normpath(f"{os.path.dirname(page)}/{target}".lstrip("/"))
                    if "://" not in target and not path.startswith(("crates/", "tools/", "suite/", "examples/", ".github/", "CONTRIBUTING.md")):
                        with self.subTest(page=page, target=target):
                            self.assertTrue(os.path.exists(f"{top}/{path}"))

    def test_cmake_finds_the_library(self):
        self.wants("cmake")
        make("install", f"PREFIX={self.folder}/before")
        # (a tree that has been moved)
        there = f"{self.folder}/there"
        os.rename(f"{self.folder}/before", there)
        major, minor, _ = runs.VERSION.split(".")
        os.mkdir(f"{self.folder}/project")
        with open(f"{self.folder}/project/program.c", "w", encoding="utf-8") as file:
            file.write(C_PROGRAM)
        for number, (wanted, is_found) in enumerate((("", True), (f"{major}.{minor}", True), (runs.VERSION, True), (f"{major}.{int(minor) + 1}", False), (f"{major}.{minor}.9999", False))):
            with open(f"{self.folder}/project/CMakeLists.txt", "w", encoding="utf-8") as file:
                file.write(f"cmake_minimum_required(VERSION 3.10)\nproject(mine C)\nfind_package(jatshegi {wanted} REQUIRED)\n")
                for name, target in (("dynamic", "jatshegi"), ("static", "static")):
                    file.write(f"add_executable({name} program.c)\ntarget_link_libraries({name} jatshegi::{target})\n")
            made = f"{self.folder}/made{number}"
            ran = called("cmake", "-S", f"{self.folder}/project", "-B", made, f"-DCMAKE_PREFIX_PATH={there}")
            self.assertEqual(ran.returncode == 0, is_found, ran.stdout + ran.stderr)
            if number == 0:
                ran = called("cmake", "--build", made)
                self.assertEqual(ran.returncode, 0, ran.stdout + ran.stderr)
                for name in ("dynamic", "static"):
                    self.assertEqual(called(f"{made}/{name}").stdout, f"{runs.VERSION} 20\n")

    def test_ldconfig_is_named_where_it_looks(self):
        install = module("install")
        self.assertIn("/usr/lib", install.linker_folders())
        self.assertNotIn(f"{self.folder}/lib", install.linker_folders())

    def test_each_function_has_a_page_of_its_name(self):
        there = f"{self.folder}/there"
        make("install", f"PREFIX={there}")
        with open(f"{runs.TOP}/include/jatshegi.h", encoding="utf-8") as file:
            functions = re.findall(r"^(?:void|uint32_t) (jatshegi_\w+)\(", file.read(), re.M)
        for name in functions:
            with open(f"{there}/share/man/man3/{name}.3", encoding="utf-8") as file:
                leads = re.fullmatch(r"\.so (man3/jatshegi_[a-z]+\.3)\n", file.read())[1]
            with open(f"{there}/share/man/{leads}", encoding="utf-8") as page:
                self.assertIn(f".Nm {name}", re.split(r" ?,?\n", page.read()), leads)
        self.wants("man")
        shown = called("man", "-M", f"{there}/share/man", "jatshegi_board_play", env={"MANPAGER": "cat"})
        self.assertIn("jatshegi_board_undo", shown.stdout, shown.stderr)

    def test_without_python_it_says_so(self):
        """So it does where Python lacks the most of its library, as Debian's python3-minimal."""
        os.mkdir(f"{self.folder}/bin")
        for python in (None, "exit 1"):
            if python:
                with open(f"{self.folder}/bin/python3", "w", encoding="utf-8") as file:
                    file.write(f"#!/bin/sh\n{python}\n")
                os.chmod(f"{self.folder}/bin/python3", 0o755)
            ran = called(shutil.which("make"), "-C", runs.TOP, "install", f"PREFIX={self.folder}/there", env={"PATH": f"{self.folder}/bin"})
            self.assertNotEqual(ran.returncode, 0)
            self.assertEqual(ran.stderr.splitlines()[0], "make: this needs Python 3 with its standard library (Debian: apt install python3)")
            self.assertFalse(os.path.exists(f"{self.folder}/there"))

    def test_help_is_the_head_of_the_makefile(self):
        lines = make("--no-print-directory", "help").splitlines()
        with open(f"{runs.TOP}/Makefile", encoding="utf-8") as file:
            head, rest = file.read().split("\n\n", 1)
        self.assertEqual(lines, [line[2:] for line in head.splitlines()])
        named = {it for line in re.findall(r"^([a-z ]+):(?: python)?\n\t", rest, re.M) for it in line.split()}
        self.assertEqual({it for line in lines for it in re.findall(r"^ +make ([a-z]+)", line)}, named - {"help", "python"})

    def test_a_changed_file_is_not_installed(self):
        for path in ("release/x86_64-linux/bin/perft", "include/jatshegi.h", "python/jatshegi/pgn.py"):
            with self.subTest(path=path), tempfile.TemporaryDirectory() as folder:
                top = copied(f"{folder}/clone")
                spoil(f"{top}/{path}")
                installs, packs = called("make", "-C", top, "install", f"PREFIX={folder}/there"), called("make", "-C", top, "packages")
                self.assertNotEqual((installs.returncode, packs.returncode), (0, 0))
                self.assertEqual(installs.stderr.splitlines()[0], f"install: {path} is not the file that release/MANIFEST names")
                self.assertEqual(packs.stderr.splitlines()[0], installs.stderr.splitlines()[0])
                self.assertNotIn("Traceback", installs.stderr + packs.stderr)
                self.assertFalse(os.path.exists(f"{folder}/there"))

    def test_the_page_plays(self):
        test_web.wants_browser()
        make("install", f"PREFIX={self.folder}/there")
        server = test_web.serve(f"{self.folder}/there/share/jatshegi/web")
        self.addCleanup(test_web.stop, server)
        browser = test_web.new_browser(self.folder)
        self.addCleanup(browser.quit)
        page = test_web.Page(browser, server)
        page.open()
        page.drag("e2", "e4")
        page.until_moves("1. e4")

    def test_the_manual_pages(self):
        """Each is well formed and named after its program; the library's names every function of the header."""
        with open(f"{runs.TOP}/include/jatshegi.h", encoding="utf-8") as file:
            functions = set(re.findall(r"^(?:void|uint32_t) (jatshegi_\w+)\(", file.read(), re.M))
        with open(f"{runs.TOP}/man/jatshegi.3", encoding="utf-8") as file:
            self.assertEqual(set(re.findall(r"^\.Fn (jatshegi_\w+)", file.read(), re.M)), functions)
        self.wants("mandoc")
        pages = [f"{runs.TOP}/man/{name}" for name in sorted(os.listdir(f"{runs.TOP}/man"))]
        ran = called("mandoc", "-T", "lint", "-W", "warning", *pages)
        self.assertEqual((ran.returncode, ran.stdout), (0, ""))

    def test_the_completions(self):
        """What bash offers after a program's name are the options and words of its help."""
        for name in ("chess", "jatshegi", "chess_games", "arbiter", "perft"):
            words = f". {runs.TOP}/completions/{name}.bash && _{name} {name} '' {name} && echo ${{COMPREPLY[*]}}"
            offered = set(called("bash", "-c", words).stdout.split())
            help_ = called(f"{runs.TOP}/release/x86_64-linux/bin/{name}", "--help").stdout
            self.assertEqual({it for it in offered if it.startswith("--")}, set(re.findall(r"^ .*?(--[a-z]+)", help_, re.M)))


class Packages(Used):
    @classmethod
    def setUpClass(cls):
        if not shutil.which("dpkg-deb"):
            raise unittest.SkipTest("dpkg-deb is not on the path")
        cls.made = tempfile.TemporaryDirectory()
        cls.addClassCleanup(cls.made.cleanup)
        # The other is packed where a library has been built since.
        copy = copied(f"{cls.made.name}/clone")
        spoil(f"{copy}/python/jatshegi/libjatshegi.so")
        cls.packages = [cls.packed(runs.TOP, f"{cls.made.name}/one"), cls.packed(copy, f"{cls.made.name}/other")]

    @classmethod
    def packed(cls, top, folder):
        ran = called(f"{top}/tools/packages", folder)
        if ran.returncode:
            raise AssertionError(ran.stdout + ran.stderr)
        return ran.stdout.split()

    def test_two_builds_have_the_same_bytes(self):
        self.assertEqual(len(self.packages[0]), 8)
        for one, other in zip(*self.packages):
            with open(one, "rb") as first, open(other, "rb") as second:
                self.assertTrue(first.read() == second.read(), one)

    def test_each_packed_file_is_the_released_one(self):
        """Each program and library that is packed has its sum in release/MANIFEST."""
        with open(f"{runs.TOP}/release/MANIFEST", encoding="utf-8") as text:
            sums = {path: digest for kind, path, _, digest in (line.split() for line in text if line.startswith("file "))}
        for system, (package, tarball) in (("x86_64-linux", self.packages[0][0:2]), ("aarch64-linux", self.packages[0][5:7])):
            for path, words in ((package, ["dpkg-deb", "--extract", package, f"{self.folder}/{system}"]), (tarball, ["tar", "-C", f"{self.folder}/{system}", "-xf", tarball])):
                shutil.rmtree(f"{self.folder}/{system}", ignore_errors=True)
                os.mkdir(f"{self.folder}/{system}")
                self.assertEqual(called(*words).returncode, 0)
                found = {}
                for at, _, names in os.walk(f"{self.folder}/{system}"):
                    for name in names:
                        if f"{system}/bin/{name}" in sums and at.endswith("/bin") or f"{system}/lib/{name}" in sums:
                            with open(f"{at}/{name}", "rb") as file:
                                found[f"{system}/{'bin' if at.endswith('/bin') else 'lib'}/{name}"] = hashlib.sha256(file.read()).hexdigest()
                self.assertEqual(found, {it: digest for it, digest in sums.items() if it.startswith(system)}, path)

    def test_one_kind_needs_its_own_tools_alone(self):
        os.mkdir(f"{self.folder}/bin")
        for tool in ("make", "python3"):
            os.symlink(shutil.which(tool), f"{self.folder}/bin/{tool}")
        few = {"PATH": f"{self.folder}/bin"}
        ran = called(f"{runs.TOP}/tools/packages", "--tarball", "--wheel", "--npm", "--crate", f"{self.folder}/out", env=few)
        self.assertEqual(ran.returncode, 0, ran.stderr)
        self.assertEqual([os.path.basename(it) for it in ran.stdout.split()], [os.path.basename(it) for it in self.packages[0] if not it.endswith(".deb")])
        ran = called(f"{self.folder}/bin/make", "--no-print-directory", "-C", runs.TOP, "deb", env=few)
        self.assertNotEqual(ran.returncode, 0)
        self.assertEqual(ran.stderr.splitlines()[0], "packages: dpkg-deb is not on the path, and `make deb` needs it; these don't: `make tarball` `make wheel` `make npm` `make crate`")
        ran = called(f"{runs.TOP}/tools/packages", "--rpm")
        self.assertTrue(ran.stderr.startswith("usage: tools/packages"), ran.stderr)

    def test_each_has_the_released_library(self):
        with open(f"{runs.TOP}/release/x86_64-linux/lib/libjatshegi.so.1", "rb") as file:
            library = file.read()
        for packages in self.packages:
            with zipfile.ZipFile(packages[2]) as wheel:
                self.assertTrue(wheel.read("jatshegi/libjatshegi.so") == library)

    def test_none_has_the_list_of_an_install(self):
        for package, words in zip(self.packages[0], (["dpkg-deb", "--contents"], ["tar", "-tf"])):
            paths = called(*words, package).stdout
            self.assertIn("share/jatshegi/web/index.html", paths)
            self.assertIn("share/jatshegi/web/jatshegi/src/memory.js", paths)
            self.assertNotIn("jatshegi/installed", paths)

    def test_the_debian_package(self):
        package = self.packages[0][0]
        self.assertEqual(called("dpkg-deb", "--field", package, "Version").stdout.strip(), runs.VERSION)
        called("dpkg-deb", "--extract", package, f"{self.folder}/there")
        self.assert_programs(f"{self.folder}/there/usr/bin")
        self.assert_links(f"{self.folder}/there/usr/lib/x86_64-linux-gnu")
        self.assert_imports(f"{self.folder}/there/usr/lib/python3/dist-packages")
        self.wants("lintian")
        ran = called("lintian", "--fail-on", "error", package)
        self.assertEqual(ran.returncode, 0, ran.stdout + ran.stderr)

    def test_the_packages_for_arm64(self):
        """They have the files that are released for it, and the wheel says so; tests/test_arm64.py runs these."""
        for package, words in zip(self.packages[0][5:7], (["dpkg-deb", "--extract"], ["tar", "-C", f"{self.folder}/tar", "-xf"])):
            os.makedirs(f"{self.folder}/tar", exist_ok=True)
            called(*words, package, *([f"{self.folder}/deb"] if words[0] == "dpkg-deb" else []))
        self.assertEqual(called("dpkg-deb", "--field", self.packages[0][5], "Architecture").stdout, "arm64\n")
        released = f"{runs.TOP}/release/aarch64-linux"
        tops = f"{self.folder}/deb/usr", f"{self.folder}/tar/jatshegi-{runs.VERSION}-aarch64-linux"
        for top, library in zip(tops, ("lib/aarch64-linux-gnu", "lib")):
            for path, of in (("bin/chess", "bin/chess"), (f"{library}/libjatshegi.so.1", "lib/libjatshegi.so.1")):
                with open(f"{top}/{path}", "rb") as one, open(f"{released}/{of}", "rb") as other:
                    self.assertTrue(one.read() == other.read(), path)
        self.assertRegex(self.packages[0][7], r"py3-none-manylinux_2_17_aarch64\.whl$")
        with zipfile.ZipFile(self.packages[0][7]) as wheel, open(f"{released}/lib/libjatshegi.so.1", "rb") as library:
            self.assertTrue(wheel.read("jatshegi/libjatshegi.so") == library.read())
            self.assertNotIn("jatshegi/_fast.abi3.so", wheel.namelist())

    def test_the_tarball(self):
        package = self.packages[0][1]
        called("tar", "-C", self.folder, "-xf", package)
        top = f"{self.folder}/jatshegi-{runs.VERSION}-x86_64-linux"
        self.assert_programs(f"{top}/bin")
        self.assert_links(f"{top}/lib")
        self.assert_imports(f"{top}/lib/python3/dist-packages")

    def test_the_wheel(self):
        words = [sys.executable, "-m", "pip", "install", "--quiet", "--no-deps", "--no-index", "--target", f"{self.folder}/there", self.packages[0][2]]
        ran = called(*words, env={"HOME": self.folder})
        if "No module named pip" in ran.stderr:
            self.skipTest("pip is not installed")
        self.assertEqual(ran.returncode, 0, ran.stderr)
        self.assert_imports(f"{self.folder}/there")


    def test_sources_and_editable(self):
        """Pip builds the archive of the sources anywhere, and installs the clone's own package where it is."""
        packed = called(sys.executable, "-c", f"import packing; print(packing.build_sdist({self.folder!r}))", cwd=f"{runs.TOP}/python")
        self.assertEqual(packed.stdout.strip(), f"jatshegi-{runs.VERSION}.tar.gz", packed.stderr)
        pip = [sys.executable, "-m", "pip", "install", "--quiet", "--no-deps", "--no-index", "--no-build-isolation"]
        ran = called(*pip, "--target", f"{self.folder}/built", f"{self.folder}/{packed.stdout.strip()}", env={"HOME": self.folder})
        if "No module named pip" in ran.stderr:
            self.skipTest("pip is not installed")
        self.assertEqual(ran.returncode, 0, ran.stderr)
        self.assert_imports(f"{self.folder}/built")
        wheel = called(sys.executable, "-c", f"import packing; print(packing.build_editable({self.folder!r}))", cwd=f"{runs.TOP}/python").stdout.strip()
        with zipfile.ZipFile(f"{self.folder}/{wheel}") as read:
            self.assertEqual(read.read("jatshegi.pth").decode(), f"{os.path.realpath(runs.TOP)}/python\n")

    def test_the_tag_of_the_wheel(self):
        """The library needs no newer glibc than the wheel's tag says."""
        self.wants("objdump")
        paths = [f"{runs.TOP}/release/x86_64-linux/lib/{it}" for it in ("libjatshegi.so.1", "_fast.abi3.so")]
        needed = re.findall(r"GLIBC_(\d+)\.(\d+)", "".join(called("objdump", "-T", path).stdout for path in paths))
        major, minor = re.search(r"manylinux_(\d+)_(\d+)_x86_64", self.packages[0][2]).groups()
        self.assertTrue(needed)
        self.assertLessEqual(max((int(a), int(b)) for a, b in needed), (int(major), int(minor)))


class GetIt(Used):
    """README's commands to get it, each as it is there, with stand-ins for what they want of the system, so that all goes into a folder."""

    def setUp(self):
        super().setUp()
        for tool in ("make", "dpkg-deb", "xz"):
            self.wants(tool)
        self.top = copied(f"{self.folder}/clone")
        self.there, self.unpacked, tools = (f"{self.folder}/{it}" for it in ("there", "unpacked", "tools"))
        os.mkdir(tools)
        for name, text in (
            ("sudo", 'exec "$@"'),
            ("ldconfig", ""),
            ("dpkg", f'test "$1" = -i && exec dpkg-deb -x "$2" "{self.unpacked}"'),
            ("make", f'case "$*" in install|uninstall) set -- "$@" "DESTDIR={self.there}" ;; esac\nexec /usr/bin/make "$@"'),
        ):
            with open(f"{tools}/{name}", "w", encoding="utf-8") as file:
                file.write(f"#!/bin/sh\n{text}\n")
            os.chmod(f"{tools}/{name}", 0o755)
        self.env = {"PATH": f"{tools}:{BARE}", "HOME": self.folder, "PIP_NO_INDEX": "1", "PIP_DISABLE_PIP_VERSION_CHECK": "1", "npm_config_offline": "true"}

    def ran(self, line):
        ran = called("sh", "-c", line, cwd=self.top, env=self.env)
        self.assertEqual(ran.returncode, 0, f"{line}\n{ran.stdout}{ran.stderr}")
        return ran.stdout

    def installed(self, line):
        self.assert_imports(package_of(self.ran(line)))
        self.assert_programs(f"{self.there}/usr/local/bin")
        self.ran("make uninstall")
        self.assertEqual(paths_below(self.there), [])

    def packed(self, line):
        self.ran(line)
        self.assert_programs(f"{self.unpacked}/usr/bin")

    def unpacked_here(self, line):
        self.ran(line)
        self.assert_programs(f"{self.top}/jatshegi-{runs.VERSION}-x86_64-linux/bin")

    def in_an_environment(self, line):
        if called("python3", "-c", "import ensurepip, venv").returncode:
            self.skipTest("python3-venv is not installed")
        self.ran(line)
        shown = self.ran("here/bin/python -c 'import jatshegi; print(jatshegi.__file__, len(jatshegi.Board().legal_moves))'")
        self.assertRegex(shown, rf"\A{re.escape(self.top)}/here/lib/.*/jatshegi/__init__.py 20\n\Z")

    def in_a_project(self, line):
        if not shutil.which("npm", path=BARE):
            self.skipTest("npm is not installed")
        self.ran(line)
        self.assertEqual(self.ran("node --input-type=module -e \"import { Chess } from 'jatshegi'; console.log(new Chess().moves().length)\""), "20\n")

    def test_each_command(self):
        with open(f"{runs.TOP}/README.md", encoding="utf-8") as file:
            section = re.search(r"^## Get it\n(.*?)^## ", file.read(), re.M | re.S)[1]
        lines = re.findall(r"^    (\S.*)$", section, re.M)
        ways = {"sudo make install": self.installed, "make packages": self.ran, "sudo dpkg": self.packed, "tar -xf": self.unpacked_here, "python3 -m venv": self.in_an_environment, "npm install": self.in_a_project}
        self.assertEqual([next((way for way in ways if line.startswith(way)), line) for line in lines], list(ways))
        for line, way in zip(lines, ways.values()):
            with self.subTest(line=line):
                way(line)


if __name__ == "__main__":
    unittest.main()

"""The released programs are what the sources give, and ./chess, ./chess_games, ./arbiter and ./perft run them there and nowhere else."""
import glob
import hashlib
import os
import platform
import pty
import shutil
import subprocess
import tempfile
import time
import unittest

import runs

SYSTEM = "x86_64-linux"
PROGRAM = f"{SYSTEM}/bin/chess"
OTHERS = ("arbiter", "chess_games", "perft")
ENGINE = f"{SYSTEM}/bin/jatshegi"
LIBRARIES = ("libjatshegi.a", "libjatshegi.so.1")
# The part of the Python package in C.
FAST = f"{SYSTEM}/lib/_fast.abi3.so"
# The system's own folders: no kit is on this path.
BARE = {"PATH": "/usr/bin:/bin"}


def manifest(top=runs.TOP):
    """The manifest's words, each with the rest of its line; the files by their paths; the page's module; the sources that are installed, by their paths."""
    with open(f"{top}/release/MANIFEST", encoding="utf-8") as text:
        lines = [line.split(maxsplit=1) for line in text.read().splitlines() if not line.startswith("#")]
    files, modules, sources = ([rest.split() for word, rest in lines if word == wanted] for wanted in ("file", "module", "source"))
    words = {word: rest for word, rest in lines if word not in ("file", "module", "source")}
    return words, {path: rest for path, *rest in files}, modules[0], {path: rest for path, *rest in sources}


def sum_of(data):
    return hashlib.sha256(data).hexdigest()


def read(path):
    with open(path, "rb") as file:
        return file.read()


def tool_version(*words):
    return subprocess.run(words, capture_output=True, check=True, text=True).stdout.splitlines()[0].strip()


def difference(released, built, kit_of_release, kit_here):
    """Why the released program is not the one that was built, or None where it is, or where kits differ and both write the same."""
    if read(released) == read(built):
        return None
    if kit_of_release == kit_here:
        return f"it is not the program that {kit_here} builds from these sources"
    for each in runs.RUNS:
        if runs.run(released, each) != runs.run(built, each):
            return f"the two programs differ in the run '{each.name}'"
    print(f"release: built by {kit_of_release}, and by {kit_here} to other bytes; all {len(runs.RUNS)} runs of both write the same")
    return None


class TheRelease(unittest.TestCase):
    def test_the_sources_are_those_of_the_manifest(self):
        sources = subprocess.run([f"{runs.TOP}/tools/sources"], capture_output=True, check=True).stdout
        self.assertEqual(sum_of(sources), manifest()[0]["sources"], "make release/ anew: tools/release")
        self.assertEqual(sources, read(f"{runs.TOP}/release/chess.sources"))
        sources = subprocess.run([f"{runs.TOP}/tools/sources", "chess", "chess_games", "arbiter", "perft", "chess_c"], capture_output=True, check=True).stdout
        self.assertEqual(sum_of(sources), manifest()[0]["all"], "make release/ anew: tools/release")
        self.assertEqual(sources, read(f"{runs.TOP}/release/all.sources"))

    def test_the_version_is_that_of_the_repository(self):
        first, second, third = map(int, runs.VERSION.split("."))
        header = read(f"{runs.TOP}/include/jatshegi.h").decode()
        self.assertIn(f'#define JATSHEGI_VERSION "{runs.VERSION}"\n#define JATSHEGI_VERSION_NUMBER 0x{65536 * first + 256 * second + third:06x}\n', header)
        self.assertEqual(read(f"{runs.TOP}/VERSION").decode().strip(), manifest()[0]["version"])

    def test_each_file_is_as_the_manifest_says_and_there_is_no_other(self):
        found = set()
        for path, (size, digest) in manifest()[1].items():
            data = read(f"{runs.TOP}/release/{path}")
            self.assertEqual((len(data), sum_of(data)), (int(size), digest), path)
        for folder, _, names in os.walk(f"{runs.TOP}/release"):
            found.update(os.path.relpath(f"{folder}/{name}", f"{runs.TOP}/release") for name in names)
        self.assertEqual(found - {"MANIFEST", "chess.sources", "all.sources"}, set(manifest()[1]))
        of_each = ["bin/chess", "bin/jatshegi", *(f"bin/{it}" for it in OTHERS), *(f"lib/{it}" for it in LIBRARIES)]
        self.assertEqual(set(manifest()[1]), {FAST, *(f"{system}/{it}" for system in (SYSTEM, "aarch64-linux") for it in of_each)})

    def test_the_module_of_the_page_is_as_the_manifest_says(self):
        """tests/test_web.py asks whether its sources are those of the repository."""
        path, size, digest = manifest()[2]
        data = read(f"{runs.TOP}/{path}")
        self.assertEqual((path, len(data), sum_of(data)), ("web/jatshegi.wasm", int(size), digest))

    def test_the_header_and_the_package_are_as_the_manifest_says(self):
        """`make install` takes no others, and so do the packages."""
        package = set(glob.glob("python/jatshegi/**/*.py", root_dir=runs.TOP, recursive=True))
        self.assertEqual(set(manifest()[3]), {"include/jatshegi.h"} | package)
        for path, (size, digest) in manifest()[3].items():
            data = read(f"{runs.TOP}/{path}")
            self.assertEqual((len(data), sum_of(data)), (int(size), digest), f"{path}: make release/ anew: tools/release")

    def test_the_program_is_the_one_just_built(self):
        self.assertIsNone(difference(f"{runs.TOP}/release/{PROGRAM}", runs.BUILT, manifest()[0]["kit"], tool_version("rt", "version")))

    def test_the_other_programs_are_those_just_built(self):
        for name in OTHERS:
            with self.subTest(program=name):
                released, crate = f"{runs.TOP}/release/{SYSTEM}/bin/{name}", f"{runs.TOP}/crates/{name}"
                if manifest()[0]["kit"] == tool_version("rt", "version"):
                    self.assertEqual(sum_of(read(released)), sum_of(read(f"{crate}/out/{name}")), "make release/ anew: tools/release")
                ran = subprocess.run([released], input=read(f"{crate}/stdin"), capture_output=True, timeout=runs.MOST_SECONDS)
                self.assertEqual(ran.stdout, read(f"{crate}/stdout"))

    def test_the_libraries_are_those_just_built(self):
        """To the byte under the same kit and compiler; under others test_c and test_python try both."""
        runs.make("libraries")
        if (manifest()[0]["kit"], manifest()[0]["cc"]) != (tool_version("rt", "version"), tool_version("cc", "--version")):
            self.skipTest("the release was built by another kit or compiler")
        for name in LIBRARIES:
            self.assertEqual(sum_of(read(f"{runs.TOP}/release/{SYSTEM}/lib/{name}")), sum_of(read(f"{runs.TOP}/out/{name}")), name)
        self.assertEqual(sum_of(read(f"{runs.TOP}/release/{ENGINE}")), sum_of(read(f"{runs.TOP}/out/jatshegi")), ENGINE)

    def test_the_part_in_c_of_the_python_package_is_the_one_just_built(self):
        """To the byte under the same compiler and the same Python; under others test_python tries it."""
        if (manifest()[0]["cc"], manifest()[0]["python"]) != (tool_version("cc", "--version"), platform.python_version()):
            self.skipTest("the release was built by another compiler or Python")
        runs.make("fast")
        self.assertEqual(sum_of(read(f"{runs.TOP}/release/{FAST}")), sum_of(read(f"{runs.TOP}/python/jatshegi/_fast.abi3.so")))

    def test_the_module_of_the_page_is_the_one_just_built(self):
        """To the byte under the same kit, and lowered to a 32-bit memory under the same binaryen; tests/test_web.py tries it."""
        if manifest()[0]["kit"] != tool_version("rt", "version"):
            self.skipTest("the module was built by another kit")
        runs.make("prove", "--wasm", "chess_c")
        path, size, digest = manifest()[0]["whole"].split()
        built = read(f"{runs.TOP}/{path}")
        self.assertEqual((len(built), sum_of(built)), (int(size), digest), "make release/ anew: tools/release")
        with tempfile.TemporaryDirectory() as folder:
            lowered = subprocess.run([f"{runs.TOP}/tools/lower", f"{runs.TOP}/{path}", f"{folder}/lowered.wasm"], capture_output=True, text=True)
            if lowered.returncode == 127:
                self.skipTest("binaryen 108 is not installed: the module is not lowered again")
            self.assertEqual(lowered.returncode, 0, lowered.stderr)
            self.assertEqual(sum_of(read(f"{runs.TOP}/web/jatshegi.wasm")), sum_of(read(f"{folder}/lowered.wasm")))


class ADifference(unittest.TestCase):
    """One byte fails the gate under the same kit; under another one the runs decide."""

    def setUp(self):
        self.folder = tempfile.TemporaryDirectory()
        self.addCleanup(self.folder.cleanup)
        self.other = f"{self.folder.name}/chess"

    def write(self, data):
        with open(self.other, "wb") as file:
            file.write(data)
        os.chmod(self.other, 0o755)

    def test_one_byte_more(self):
        self.write(read(runs.BUILT) + b"\0")
        self.assertIn("not the program", difference(self.other, runs.BUILT, "kit logic", "kit logic"))
        self.assertIsNone(difference(self.other, runs.BUILT, "another kit logic", "kit logic"))

    def test_another_answer(self):
        self.write(f'#!/bin/sh\n"{runs.BUILT}" "$@" | sed s/mate/draw/\n'.encode())
        self.assertIn("differ in the run", difference(self.other, runs.BUILT, "another kit logic", "kit logic"))


class TheCommand(unittest.TestCase):
    """./chess and the commands beside it in a copy of what they need, where the kit is not on the path."""

    def setUp(self):
        folder = tempfile.TemporaryDirectory()
        self.addCleanup(folder.cleanup)
        self.top = f"{folder.name}/a clone"
        os.mkdir(self.top)
        for path in ("chess", *OTHERS, "build", "VERSION", "crates.txt"):
            shutil.copy2(f"{runs.TOP}/{path}", self.top)
        for path in ("tools", "release"):
            shutil.copytree(f"{runs.TOP}/{path}", f"{self.top}/{path}")
        shutil.copytree(f"{runs.TOP}/crates", f"{self.top}/crates", ignore=shutil.ignore_patterns("out"))

    def answers(self, command=None, words=("board",), path=BARE["PATH"]):
        ran = subprocess.run([command or f"{self.top}/chess", *words], input="new\neval\n", capture_output=True, text=True, env={"PATH": path}, cwd="/")
        return ran.returncode, ran.stdout, ran.stderr

    def change(self, path, old, new):
        text = read(f"{self.top}/{path}")
        self.assertIn(old, text)
        with open(f"{self.top}/{path}", "wb") as file:
            file.write(text.replace(old, new, 1))

    def assert_refused(self, *parts):
        """Nothing is run, since nothing can be built without the kit; the standard error says these."""
        status, output, error = self.answers()
        self.assertEqual((status, output), (126, ""))
        for part in (*parts, "rt, the command of Rattle's kit, is not on the path"):
            self.assertIn(part, error)

    def test_a_clone_answers_without_the_kit(self):
        self.assertEqual(self.answers(), (0, "ok\n0\n", ""))

    def test_the_other_programs_answer_without_the_kit(self):
        for name in OTHERS:
            with self.subTest(program=name):
                given = read(f"{runs.TOP}/crates/{name}/stdin")
                ran, wanted = (subprocess.run([it], input=given, capture_output=True, env=BARE, cwd="/") for it in (f"{self.top}/{name}", f"{self.top}/release/{SYSTEM}/bin/{name}"))
                self.assertEqual((ran.returncode, ran.stdout, ran.stderr), (wanted.returncode, wanted.stdout, wanted.stderr))
                self.assertEqual(ran.stdout, read(f"{runs.TOP}/crates/{name}/stdout"))
                self.assertEqual(self.answers(f"{self.top}/{name}", ["--version"])[1], f"{name} {runs.VERSION}\n")

    def test_another_program_of_changed_sources_or_bytes(self):
        with open(f"{self.top}/release/{SYSTEM}/bin/arbiter", "ab") as file:
            file.write(b"\0")
        status, output, error = self.answers(f"{self.top}/arbiter", [])
        self.assertEqual((status, output), (126, ""))
        self.assertIn(f"arbiter: release/{SYSTEM}/bin/arbiter is not the file that release/MANIFEST names, and is not run", error)
        self.change("crates/chess_report/src/lib.rt", b"//!", b"//! ")
        for name in OTHERS:
            with self.subTest(program=name):
                status, output, error = self.answers(f"{self.top}/{name}", [])
                self.assertEqual((status, output), (126, ""))
                self.assertIn(f"{name}: crates/chess_report/src/lib.rt is not as it was at the release", error)

    def test_another_program_is_built_once(self):
        self.change("crates/chess_report/src/lib.rt", b"//!", b"//! ")
        path = self.build_by(f'echo built >>"{self.top}/builds"; cp "{runs.TOP}/release/{SYSTEM}/bin/arbiter" "$made"')
        for _ in range(2):
            status, output, error = self.answers(f"{self.top}/arbiter", ["--version"], path)
            self.assertEqual(output, f"arbiter {runs.VERSION}\n", error)
        self.assertEqual(read(f"{self.top}/builds"), b"built\n")
        status, _, error = self.answers(f"{self.top}/build", ["nothing"], path)
        self.assertEqual((status, error), (2, "build: there is no program nothing\n"))

    def at_a_terminal(self, *words, given):
        """What a command writes to the two streams where a person types."""
        ours, terminal = pty.openpty()
        self.addCleanup(os.close, ours)
        session = subprocess.Popen(words, stdin=terminal, stdout=subprocess.PIPE, stderr=subprocess.PIPE, text=True, env=BARE)
        os.close(terminal)
        os.write(ours, given + b"\x04")
        return session.communicate(timeout=runs.MOST_SECONDS)

    def test_a_greeting_at_a_terminal(self):
        output, error = self.at_a_terminal(f"{self.top}/chess", "board", given=b"eval\n")
        self.assertEqual(output, "0\n")
        self.assertRegex(error, r"\AType `new`.* --help .*Ctrl-D ends\.\n\Z")
        for name in ("chess_games", "arbiter"):
            self.assertEqual(self.at_a_terminal(f"{self.top}/{name}", given=b"")[1], f"Games come on the standard input: ./{name} < games.pgn; here Ctrl-D ends them.\n")
        self.assertEqual(self.at_a_terminal(f"{self.top}/arbiter", "--version", given=b""), (f"arbiter {runs.VERSION}\n", ""))

    def test_by_a_link_from_another_folder(self):
        with tempfile.TemporaryDirectory() as folder:
            os.symlink(f"{self.top}/chess", f"{folder}/engine")
            self.assertEqual(self.answers(f"{folder}/engine"), (0, "ok\n0\n", ""))

    def test_a_folder_that_can_not_be_written(self):
        for folder, _, _ in os.walk(self.top):
            os.chmod(folder, 0o555)
        self.addCleanup(subprocess.run, ["chmod", "-R", "u+w", self.top])
        self.assertEqual(self.answers(), (0, "ok\n0\n", ""))

    def test_a_changed_proof_changes_no_program(self):
        self.change("crates/chess_types/proofs/Lib.antt", b"\n", b"\n-- a comment\n")
        self.assertEqual(self.answers(), (0, "ok\n0\n", ""))

    def test_a_changed_comment(self):
        self.change("crates/chess_types/src/lib.rt", b"//!", b"//! ")
        self.assert_refused("crates/chess_types/src/lib.rt is not as it was at the release")

    def test_a_changed_line_of_code(self):
        self.change("crates/chess_cli/src/ended.rt", b"pub ", b"pub  ")
        self.assert_refused("crates/chess_cli/src/ended.rt is not as it was at the release")

    def test_another_library_below(self):
        self.change("crates.txt", b"chess_types: arrayvec", b"chess_types: arrayvec itoa")
        self.assert_refused("crates.txt is not as it was at the release")

    def test_a_crate_that_the_program_does_not_stand_on(self):
        self.change("crates/perft/src/main.rt", b"//!", b"//! ")
        self.assertEqual(self.answers(), (0, "ok\n0\n", ""))

    def test_one_byte_of_the_program_turned(self):
        data = bytearray(read(f"{self.top}/release/{PROGRAM}"))
        data[len(data) // 2] ^= 1
        with open(f"{self.top}/release/{PROGRAM}", "wb") as file:
            file.write(data)
        self.assert_refused(f"release/{PROGRAM} is not the file that release/MANIFEST names, and is not run")

    def test_no_program(self):
        os.remove(f"{self.top}/release/{PROGRAM}")
        self.assert_refused(f"release/{PROGRAM} is missing")

    def test_no_release(self):
        shutil.rmtree(f"{self.top}/release")
        self.assert_refused("there is no release/MANIFEST")

    def build_by(self, script, proof=":"):
        """A path with a stand-in for the kit, which proves a crate by one script, `$3` its name, and links the program by another."""
        kit = f"{self.top}/kit"
        os.makedirs(f"{kit}/bin")
        made = 'for word; do [ "$last" = -o ] && made=$word; last=$word; done\n'
        for path, text in (
            ("KIT-ID", "a kit"),
            ("rt", f"#!/bin/sh\necho '{kit}/START-HERE.md'\n"),
            ("bin/rattle", f'#!/bin/sh\n{made}{proof} || exit 1\ncase "$*" in *--statements*) mkdir "$made" && : >"$made/format" ;; *) : >"$made" ;; esac\n'),
            ("bin/rattle-link", f"#!/bin/sh\n{made}{script}\n"),
        ):
            with open(f"{kit}/{path}", "w", encoding="utf-8") as file:
                file.write(text)
            os.chmod(f"{kit}/{path}", 0o755)
        return f"{kit}:{BARE['PATH']}"

    def test_changed_sources_are_built_once(self):
        self.change("crates/chess_types/src/lib.rt", b"//!", b"//! ")
        path = self.build_by(f'echo built >>"{self.top}/builds"; cp "{runs.BUILT}" "$made"')
        status, output, error = self.answers(path=path)
        self.assertEqual((status, output), (0, "ok\n0\n"))
        self.assertRegex(error, r"\Achess: crates/chess_types/src/lib.rt is not as it was .*minutes")
        self.assertEqual(self.answers(path=path), (0, "ok\n0\n", ""))
        self.assertEqual(read(f"{self.top}/builds"), b"built\n")
        self.change("crates/chess_types/src/lib.rt", b"//! ", b"//!  ")
        self.assertEqual(self.answers(path=path)[:2], (0, "ok\n0\n"))
        self.assertEqual(read(f"{self.top}/builds"), b"built\n", "a comment changes nothing that is built")
        self.change("crates/chess_types/src/lib.rt", b"mod board;", b"mod  board;")
        self.assertEqual(self.answers(path=path)[:2], (0, "ok\n0\n"))
        self.assertEqual(read(f"{self.top}/builds"), b"built\nbuilt\n")

    def test_a_build_that_fails(self):
        self.change("crates/chess_types/src/lib.rt", b"//!", b"//! ")
        status, output, error = self.answers(path=self.build_by("echo 'error: not proved'; exit 1"))
        self.assertEqual((status, output), (126, ""))
        self.assertIn("error: not proved", error)

    def test_a_library_that_is_not_proved(self):
        self.change("crates/chess_types/src/lib.rt", b"//!", b"//! ")
        status, output, error = self.answers(path=self.build_by(":", '[ "$3" != chess_san ]'))
        self.assertEqual((status, output), (126, ""))
        self.assertIn("chess_san is not proved and built", error)
        self.assertNotIn("chess_draws", error)

    def test_another_program_in_its_place_is_built_again(self):
        path = self.build_by(f'cp "{runs.BUILT}" "$made"')
        for _ in range(2):
            self.assertEqual(self.answers(words=["--build"], path=path)[0], 0)
            self.assertEqual(read(f"{self.top}/crates/chess/out/chess"), read(runs.BUILT))
            with open(f"{self.top}/crates/chess/out/chess", "wb") as file:
                file.write(b"another program")

    def test_a_build_that_is_ended_ends_its_proofs(self):
        path = self.build_by(":", f'echo "$$" >>"{self.top}/proofs" && exec sleep 600')
        build = subprocess.Popen([f"{self.top}/build"], stdin=subprocess.DEVNULL, stderr=subprocess.DEVNULL, env={"PATH": path})
        end = time.monotonic() + 600
        while not os.path.exists(f"{self.top}/proofs") and time.monotonic() < end:
            time.sleep(0.05)
        build.terminate()
        self.assertNotEqual(build.wait(timeout=600), 0)
        # (build doesn't wait for what it has ended)
        left = {int(number) for number in read(f"{self.top}/proofs").split()}
        while left and time.monotonic() < end:
            left = {number for number in left if os.path.exists(f"/proc/{number}")}
            time.sleep(0.05)
        self.assertEqual(left, set())

    def test_a_build_on_purpose(self):
        path = self.build_by(f'cp "{runs.BUILT}" "$made"')
        status, _, error = self.answers(words=["--build"], path=path)
        self.assertEqual(status, 0, error)
        self.assertTrue(os.path.exists(f"{self.top}/crates/chess/out/chess.made"))

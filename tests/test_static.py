"""The programs linked statically with musl, from the objects of the released ones: they do what those do, byte for byte, on any Linux."""
import importlib.machinery
import importlib.util
import os
import random
import shutil
import subprocess
import tempfile
import unittest

import runs
import test_arm64

STATIC = f"{runs.TOP}/out/static/bin"
PROGRAMS = ("chess", "chess_games", "arbiter", "perft")
SCRIPTS = 500
PARTS = [f"{runs.TOP}/platforms/linux/{it}" for it in ("os.c", "musl.c")]


def setUpModule():
    runs.install(lambda: shutil.which("musl-gcc"), "musl-tools")
    if not shutil.which("musl-gcc"):
        raise unittest.SkipTest("no static program is linked, since musl-gcc is missing: apt-get install musl-tools")
    runs.make("libraries")
    runs.make("static")


def called(*words, **also):
    return subprocess.run(words, **{"capture_output": True, "timeout": 600} | also)


class Static(unittest.TestCase):
    def assert_same(self, name, given, *words, **also):
        """The program writes the same as the one with glibc."""
        found, wanted = (called(path, *words, input=given, **also) for path in (f"{STATIC}/{name}", f"{runs.TOP}/crates/{name}/out/{name}"))
        self.assertEqual((found.returncode, found.stderr, found.stdout), (wanted.returncode, wanted.stderr, wanted.stdout), (name, words))

    def test_they_want_nothing_of_the_system(self):
        for name in (*PROGRAMS, "jatshegi"):
            shown = called("objdump", "-p", f"{STATIC}/{name}").stdout.decode()
            self.assertNotIn("INTERP", shown)
            self.assertNotIn("NEEDED", shown)
            # An empty root, but for the program.
            with tempfile.TemporaryDirectory() as root:
                shutil.copy(f"{STATIC}/{name}", root)
                if os.geteuid() == 0 and shutil.which("chroot"):
                    self.assertEqual(called("chroot", root, f"/{name}", "--version").stdout.decode(), f"{name} {runs.VERSION}\n")

    def test_the_runs(self):
        for it in runs.RUNS:
            with self.subTest(run=it.name):
                ended = runs.run(f"{STATIC}/chess", it)
                if it.output is not None:
                    self.assertEqual(ended.output.decode("latin-1"), it.output)
                if it.error is not None:
                    self.assertEqual(ended.error.decode("latin-1"), it.error)
                self.assertEqual(ended.status, it.status)

    def test_scripts_beside_the_program_with_glibc(self):
        chance = random.Random(69)
        with open(f"{runs.TOP}/suite/games.txt", encoding="utf-8") as file:
            games = [line.split("|")[1].split() for line in file if "|" in line and not line.startswith("#")]
        lines = [line for _ in range(SCRIPTS) for line in test_arm64.script(chance, chance.choice(games))]
        self.assert_same("chess", "\n".join(lines).encode(), "board")

    def test_games(self):
        for path in ("suite/claims.pgn", "crates/corpus/stdout", "crates/chess_games/stdin"):
            text = test_arm64.read(f"{runs.TOP}/{path}")
            self.assert_same("chess", text, "pgn")
            self.assert_same("chess_games", text, "--totals")
            self.assert_same("chess_games", text.replace(b"e4", b"e2-e4").replace(b"O-O", b"OO"), "--salvage", "--totals")
            self.assert_same("arbiter", text)
            self.assert_same("arbiter", text, "--format", "jsonl")
        self.assert_same("perft", test_arm64.read(f"{runs.TOP}/crates/perft/stdin"))

    def test_words_streams_and_places(self):
        for words in ([], [""], ["a b"], ["x" * 9_000], [b"\xff\xfe"], ["board", "more"], ["--version"], ["--help"]):
            self.assert_same("chess", b"", *words)
        with tempfile.TemporaryDirectory() as folder:
            self.assert_same("chess", b"new\n", "board", env={}, cwd=folder)

    def test_a_clock_that_goes_and_the_engine(self):
        self.assertRegex(called(f"{STATIC}/chess", "uci", input=b"go movetime 300\nquit\n").stdout.decode(), r"bestmove \w+\n$")
        said = called(f"{STATIC}/jatshegi", input=b"uci\nposition startpos\ngo infinite\nisready\nstop\nquit\n")
        self.assertEqual(said.returncode, 0)
        self.assertIn(b"readyok\n", said.stdout)
        self.assertRegex(said.stdout.decode(), r"bestmove \w+")

    def test_memory_refused(self):
        """Growth by growth, as for the program with glibc, in one with the refuser linked in."""
        loader = importlib.machinery.SourceFileLoader("growths", f"{runs.TOP}/tools/growths")
        growths = importlib.util.module_from_spec(importlib.util.spec_from_loader("growths", loader))
        loader.exec_module(growths)
        kit = os.path.dirname(called("rt", "doc").stdout.decode().strip())
        with tempfile.TemporaryDirectory() as folder:
            with open(f"{folder}/refuser.c", "w", encoding="utf-8") as source:
                source.write(growths.REFUSER)
            parts = [f"{runs.TOP}/crates/chess/out/chess.o", *PARTS, f"{folder}/refuser.c", f"{kit}/c/liblibc_c.a"]
            made = called("musl-gcc", "-O1", "-static", "-DLINKED_IN", "-Wl,--wrap=main,--wrap=malloc,--wrap=realloc", "-o", f"{folder}/chess", *parts)
            self.assertEqual(made.returncode, 0, made.stderr.decode())
            self.assertEqual(growths.main(f"{folder}/chess"), 0)

    def test_a_processor_that_lacks_something(self):
        if not shutil.which("qemu-x86_64"):
            self.skipTest("no processor is emulated, since qemu-x86_64 is missing: apt-get install qemu-user")
        ran = called("qemu-x86_64", "-cpu", "qemu64,-sse3,-ssse3,-sse4a,-cx16,-popcnt", f"{STATIC}/chess", "--version")
        self.assertEqual((ran.returncode, ran.stdout), (127, b""))
        self.assertIn(b"this machine lacks a feature of x86-64-v2", ran.stderr)
        self.assertEqual(called("qemu-x86_64", "-cpu", "Nehalem", f"{STATIC}/chess", "--version").stdout.decode(), f"chess {runs.VERSION}\n")


if __name__ == "__main__":
    unittest.main()

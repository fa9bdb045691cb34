"""What is released for Linux on arm64 is what the sources give, and does under an emulator what the programs for x86-64 do here, byte for byte."""
import contextlib
import hashlib
import os
import random
import subprocess
import tempfile
import unittest

import runs
from test_release import manifest, read, tool_version

SYSTEM = "aarch64-linux"
PROGRAMS = ("chess", "chess_games", "arbiter", "perft")
RELEASED = f"{runs.TOP}/release/{SYSTEM}"
HERE = f"{runs.TOP}/release/x86_64-linux"
EMULATED = ["qemu-aarch64", "-L", "/usr/aarch64-linux-gnu"]
COMPILER = ["aarch64-linux-gnu-gcc", "-std=gnu11", "-Wall", "-Wextra", "-Werror", "-pedantic", f"-I{runs.TOP}/include"]
SCRIPTS = 2_000
TEXTS = ["e4", "Nf3", "O-O", "e2e4", "a7a8q", "Qxd5+", "exd6", "hello", "e9", "Nbd7", "e8=N"]
FENS = [
    "rnbqkbnr/pppppppp/8/8/8/8/PPPPPPPP/RNBQKBNR w KQkq - 0 1",
    "r3k2r/p1ppqpb1/bn2pnp1/3PN3/1p2P3/2N2Q1p/PPPBBPPP/R3K2R w KQkq - 0 1",
    "8/2p5/3p4/KP5r/1R3p1k/8/4P1P1/8 w - - 98 1",
    "r3k2r/Pppp1ppp/1b3nbN/nP6/BBP1P3/q4N2/Pp1P2PP/R2Q1RK1 w kq - 0 1",
    "8/8/8/K1pP3r/8/8/8/4k3 w - c6 0 2",
    "4k3/8/8/8/8/8/8/4RK2 b - - 149 90",
    "8/8/44/8/8/8/8/8 w - - 0 1",
]
ASKED = ["fen", "moves", "status", "claims", "count", "eval", "checks", "counts w", "counts b", "path", "pgn", "back", "start", "end", "promote", "delete", "best 1"]


def setUpModule():
    if not runs.install_arm64_tools():
        raise unittest.SkipTest(f"nothing is tried for arm64, since packages are missing: {' '.join(runs.ARM64_PACKAGES)}")


def sum_of(path):
    return hashlib.sha256(read(path)).hexdigest()


def called(*words, **also):
    return subprocess.run(words, capture_output=True, timeout=1200, **also)


def script(chance, moves):
    """Lines of `board`: moves of a random game among questions, edits, and what is refused."""
    yield "new" if chance.random() < 0.5 else f"set {chance.choice(FENS)}"
    for move in moves[: chance.randrange(20)]:
        yield f"play {move}"
        for _ in range(chance.randrange(3)):
            kind = chance.randrange(8)
            yield chance.choice(ASKED) if kind < 5 else f"play {chance.choice(TEXTS)}" if kind < 6 else f"nag {chance.randrange(300)}" if kind < 7 else f"comment {chance.choice(TEXTS)} é"


class OnArm64(unittest.TestCase):
    def setUp(self):
        folder = tempfile.TemporaryDirectory()
        self.addCleanup(folder.cleanup)
        self.folder = folder.name

    def emulated(self, name):
        """A program that runs the released one of that name, so that it can be run as any other."""
        path = f"{self.folder}/{name}"
        with open(path, "w", encoding="utf-8") as file:
            file.write(f'#!/bin/sh\nexec {" ".join(EMULATED)} {RELEASED}/bin/{name} "$@"\n')
        os.chmod(path, 0o755)
        return path

    def assert_same(self, name, given, *words):
        """The program writes the same as the one for x86-64."""
        found, wanted = (called(path, *words, input=given) for path in (self.emulated(name), f"{HERE}/bin/{name}"))
        self.assertEqual((found.returncode, found.stderr, found.stdout), (wanted.returncode, wanted.stderr, wanted.stdout), (name, words))

    def test_the_files_are_those_just_built(self):
        """To the byte under the same kit and compiler."""
        if not runs.builds_for_arm64():
            self.skipTest("on fewer than four processors the files for arm64 are run as they were released, and not built again")
        words = manifest()[0]
        if (words["kit"], words["cc-arm"]) != (tool_version("rt", "version"), tool_version("aarch64-linux-gnu-gcc", "--version")):
            self.skipTest("the release was built by another kit or compiler")
        for name in runs.FOR_ARM64:
            runs.make("prove", "--gate", "--arm64", name)
        runs.make("libraries", "--gate", "--arm64")
        built = {f"bin/{name}": f"{runs.TOP}/crates/{name}/out/{name}.arm64" for name in PROGRAMS}
        built |= {path: f"{runs.TOP}/out/{SYSTEM}/{os.path.basename(path)}" for path in ("bin/jatshegi", "lib/libjatshegi.a", "lib/libjatshegi.so.1")}
        for path, made in built.items():
            self.assertEqual(sum_of(f"{RELEASED}/{path}"), sum_of(made), f"{path}: make release/ anew: tools/release")

    def test_the_runs(self):
        program = self.emulated("chess")
        for it in runs.RUNS:
            with self.subTest(run=it.name):
                ended = runs.run(program, it)
                if it.output is not None:
                    self.assertEqual(ended.output.decode("latin-1"), it.output)
                if it.error is not None:
                    self.assertEqual(ended.error.decode("latin-1"), it.error)
                self.assertEqual(ended.status, it.status)

    def test_scripts_beside_the_program_for_amd64(self):
        chance = random.Random(68)
        with open(f"{runs.TOP}/suite/games.txt", encoding="utf-8") as file:
            games = [line.split("|")[1].split() for line in file if "|" in line and not line.startswith("#")]
        lines = [line for _ in range(SCRIPTS) for line in script(chance, chance.choice(games))]
        self.assert_same("chess", "\n".join(lines).encode(), "board")

    def test_games(self):
        texts = [read(f"{runs.TOP}/{path}") for path in ("suite/claims.pgn", "crates/corpus/stdout", "crates/chess_games/stdin")]
        for text in texts:
            self.assert_same("chess", text, "pgn")
            self.assert_same("chess_games", text, "--totals")
            self.assert_same("chess_games", text.replace(b"e4", b"e2-e4").replace(b"O-O", b"OO"), "--salvage", "--totals")
            self.assert_same("arbiter", text)
            self.assert_same("arbiter", text, "--format", "jsonl")
        self.assert_same("perft", read(f"{runs.TOP}/crates/perft/stdin"))

    def test_words_and_streams(self):
        for words in ([], [""], ["a b"], ["x" * 9_000], [b"\xff\xfe"], ["board", "more"], ["--version"], ["--help"]):
            self.assert_same("chess", b"", *words)
        for name in PROGRAMS:
            path = self.emulated(name)
            with open("/dev/full", "wb") as full:
                ended = subprocess.run([path, *(["board"] if name == "chess" else [])], input=b"new\n1 8/8/8/8/8/8/8/8 w - - 0 1\n*\n", stdout=full, stderr=subprocess.PIPE, timeout=600)
            self.assertNotEqual(ended.returncode, 0, name)

    def test_a_clock_that_goes(self):
        ended = called(self.emulated("chess"), "uci", input=b"go movetime 300\nquit\n")
        self.assertRegex(ended.stdout.decode(), r"bestmove \w+\n$")
        engine = subprocess.Popen([*EMULATED, f"{RELEASED}/bin/jatshegi"], stdin=subprocess.PIPE, stdout=subprocess.PIPE, text=True)
        with contextlib.closing(engine.stdout):
            engine.stdin.write("position startpos\ngo infinite\nisready\nstop\nquit\n")
            engine.stdin.close()
            said = engine.stdout.read()
        self.assertEqual(engine.wait(timeout=600), 0)
        self.assertIn("readyok\n", said)
        self.assertRegex(said, r"bestmove \w+")

    def test_the_library_in_c(self):
        """Every function, and each allocation refused, with the archive; every function with the shared library."""
        for source, libraries, also in (
            ("every.c", [f"{RELEASED}/lib/libjatshegi.a"], []),
            ("refused.c", [f"{RELEASED}/lib/libjatshegi.a"], ["-Wl,--wrap=malloc,--wrap=realloc,--wrap=free"]),
            ("every.c", [f"{RELEASED}/lib/libjatshegi.so.1"], [f"-Wl,-rpath,{RELEASED}/lib"]),
        ):
            with self.subTest(source=source, library=os.path.basename(libraries[0])):
                program = f"{self.folder}/program"
                built = called(*COMPILER, f"{runs.TOP}/tests/c/{source}", *libraries, *also, "-o", program)
                self.assertEqual(built.returncode, 0, built.stderr.decode())
                ended = called(*EMULATED, "-E", f"LD_LIBRARY_PATH={RELEASED}/lib", program)
                self.assertEqual(ended.returncode, 0, (ended.stdout + ended.stderr).decode())

    def test_what_the_files_want_of_the_system(self):
        """The libraries want no glibc newer than the wheel's tag says, and define nothing but the functions of the header."""
        words = ["aarch64-linux-gnu-objdump", "-T"]
        shown = called(*words, f"{RELEASED}/lib/libjatshegi.so.1").stdout.decode()
        wanted = [line.split("GLIBC_")[1].split(")")[0] for line in shown.splitlines() if "GLIBC_" in line]
        self.assertTrue(wanted)
        self.assertLessEqual(max(tuple(map(int, it.split("."))) for it in wanted), (2, 17))
        defined = [line.split()[-1] for line in shown.splitlines() if " .text" in line]
        self.assertTrue(defined)
        self.assertEqual([it for it in defined if not it.startswith("jatshegi_")], [])


if __name__ == "__main__":
    unittest.main()

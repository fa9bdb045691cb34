"""The library in C for any compiler, which tools/portable translates: the tests of the library and the answers of the program, by several compilers and systems."""
import os
import random
import re
import shutil
import subprocess
import tempfile
import unittest

import runs
import test_arm64

MADE = f"{runs.TOP}/out/portable"
STRICT = ["-Wall", "-Wextra", "-Werror", "-pedantic", f"-I{MADE}"]
WRAPPED = "-Wl,--wrap=malloc,--wrap=realloc,--wrap=free"
LINES = 20_000
# How each of these compilers is called, Debian's package of it, how what it builds is run, and how many lines that answers.
WINE = ["/usr/lib/wine/wine64"]
ELSEWHERE = {
    "x86_64-w64-mingw32-gcc": ("gcc-mingw-w64-x86-64 wine64", WINE, LINES),
    "aarch64-linux-gnu-gcc": ("gcc-aarch64-linux-gnu libc6-dev-arm64-cross qemu-user", ["qemu-aarch64"], 3_000),
    "arm-linux-gnueabihf-gcc": ("gcc-arm-linux-gnueabihf libc6-dev-armhf-cross qemu-user", ["qemu-arm"], 3_000),
}


def called(*words, **also):
    return subprocess.run(words, **{"capture_output": True, "timeout": 1200, "env": os.environ | {"WINEDEBUG": "-all"}} | also)


def script(count):
    """This number of lines of the board, of random games."""
    chance, lines = random.Random(70), []
    with open(f"{runs.TOP}/suite/games.txt", encoding="utf-8") as file:
        games = [line.split("|")[1].split() for line in file if "|" in line and not line.startswith("#")]
    while len(lines) < count:
        lines += test_arm64.script(chance, chance.choice(games))
    return "".join(f"{line}\n" for line in lines[:count]).encode()


class Portable(unittest.TestCase):
    @classmethod
    def setUpClass(cls):
        runs.make("prove", "--gate", "--wasm", "chess_c")
        runs.make("portable")
        folder = tempfile.TemporaryDirectory()
        cls.addClassCleanup(folder.cleanup)
        cls.folder = folder.name
        cls.objects = {}

    def compiled(self, *words):
        """The object that a compiler makes of it, once."""
        if words not in self.objects:
            path = f"{self.folder}/{len(self.objects)}.o"
            made = called(*words, *STRICT, "-c", f"{MADE}/jatshegi.c", "-o", path)
            self.assertEqual(made.returncode, 0, made.stderr.decode()[-3000:])
            self.objects[words] = path
        return self.objects[words]

    def build(self, source, *words, also=(), compiler=("gcc", "-O2", "-std=c11")):
        program = f"{self.folder}/program{len(os.listdir(self.folder))}.exe"
        made = called(*compiler, *STRICT, *words, f"{runs.TOP}/{source}", self.compiled(*compiler), *also, "-o", program)
        self.assertEqual(made.returncode, 0, made.stderr.decode()[-3000:])
        return program

    def ends_well(self, *words, **also):
        ran = called(*words, **also)
        self.assertEqual(ran.returncode, 0, (ran.stdout + ran.stderr).decode(errors="replace")[-3000:])
        return ran.stdout.decode(errors="replace")

    def test_every_function_by_each_compiler(self):
        for compiler in (("gcc", "-O2", "-std=c11"), ("gcc", "-O0", "-std=c99"), ("clang", "-O1", "-std=c11")):
            with self.subTest(compiler=compiler):
                if not shutil.which(compiler[0]):
                    self.skipTest(f"{compiler[0]} is not on the path")
                self.assertIn(" 0 failed", self.ends_well(self.build("tests/c/every.c", compiler=compiler)))

    def test_every_function_with_the_checks_of_the_compiler(self):
        compiler = ("gcc", "-O0", "-std=c11", "-fsanitize=address,undefined", "-fno-sanitize-recover=undefined")
        self.assertIn(" 0 failed", self.ends_well(self.build("tests/c/every.c", compiler=compiler)))

    def test_the_habits_of_c(self):
        self.assertIn(" 0 failed", self.ends_well(self.build("tests/c/habits.c"), "without memory"))

    def test_each_allocation_refused(self):
        self.assertIn("allocations refused", self.ends_well(self.build("tests/c/refused.c", "-std=gnu11", WRAPPED)))

    def test_random_calls_of_every_function(self):
        program = self.build("tests/c/fuzz.c", WRAPPED)
        self.assertRegex(self.ends_well(program, "5", "30000"), r"^steps 30000, calls \d+, refused \d+\n$")

    def test_a_text_cut_into_pieces(self):
        path = f"{runs.TOP}/suite/claims.pgn"
        native = f"{self.folder}/native"
        self.ends_well("gcc", "-O1", f"-I{MADE}", f"{runs.TOP}/tests/c/pieces.c", f"{runs.TOP}/release/x86_64-linux/lib/libjatshegi.a", "-o", native)
        self.assertEqual(self.ends_well(self.build("tests/c/pieces.c"), path), self.ends_well(native, path))

    def test_boards_on_several_threads(self):
        self.ends_well(self.build("tests/c/threads.c", "-pthread"), "500")

    def test_the_engine_over_it_stops(self):
        """Another thread sets the flag that the search looks at."""
        program = self.build("engine/jatshegi.c", "-pthread", f'-DVERSION="{runs.VERSION}"')
        said = self.ends_well(program, input=b"uci\nposition startpos\ngo infinite\nisready\nstop\ngo movetime 200\nquit\n")
        self.assertIn("readyok\n", said)
        self.assertRegex(said, r"bestmove \w+\n")

    def test_the_answers_of_the_program(self):
        given = script(LINES)
        wanted = called(f"{runs.TOP}/release/x86_64-linux/bin/chess", "board", input=given).stdout
        self.assertTrue(called(self.build("tests/c/lines.c"), input=given).stdout == wanted)

    def test_a_board_with_little_memory(self):
        """It says so where it lacks, and ends by no signal."""
        given = b"".join(b"play %s\n" % move for move in (b"g1f3", b"g8f6", b"f3g1", b"f6g8") * 2_000) + b"fen\n"
        wanted = called(f"{runs.TOP}/release/x86_64-linux/bin/chess", "board", input=given).stdout.splitlines()
        for size in (20_000, 200_000):
            compiler = ("gcc", "-O0", "-std=c11", f"-DJATSHEGI_MEMORY={size}")
            found = called(self.build("tests/c/lines.c", compiler=compiler), input=given)
            lines = found.stdout.splitlines()
            self.assertIn(found.returncode, (0, 1))
            other = next((a for a, b in zip(lines, wanted) if a != b), None)
            self.assertIn(other, (None, b"refused 5 Memory"))
            self.assertEqual((found.returncode, len(lines)) if size < 65_536 else found.returncode, (1, 0) if size < 65_536 else 0)

    def test_elsewhere(self):
        """On Windows by wine, on arm64, and on a machine with 32 bits."""
        for compiler, (packages, runner, count) in ELSEWHERE.items():
            with self.subTest(compiler=compiler):
                runs.install(lambda: shutil.which(compiler) and shutil.which(runner[0]), *packages.split())
                if not (shutil.which(compiler) and shutil.which(runner[0])):
                    self.skipTest(f"{compiler} and what runs its programs are missing: apt-get install {packages}")
                words = (compiler, "-O1", "-std=c11")
                self.assertIn(" 0 failed", self.ends_well(*runner, self.build("tests/c/every.c", "-static", compiler=words), env=os.environ | {"WINEDEBUG": "-all", "WINEPREFIX": f"{self.folder}/wine"}))
                given = script(count)
                wanted = called(f"{runs.TOP}/release/x86_64-linux/bin/chess", "board", input=given).stdout
                found = called(*runner, self.build("tests/c/lines.c", "-static", compiler=words), input=given, env=os.environ | {"WINEDEBUG": "-all", "WINEPREFIX": f"{self.folder}/wine"})
                self.assertTrue(found.stdout == wanted, found.stderr[-1000:])


class TheTranslator(unittest.TestCase):
    def test_what_it_refuses(self):
        """A module that has what isn't translated is said to have it."""
        head = b"\0asm\1\0\0\0"
        for data, why in (
            (b"none", "no WebAssembly module"),
            (head + b"\x02\x01\x00", "a section of the kind import"),
            (head + b"\x04\x01\x00", "a section of the kind table"),
            (head + b"\x05\x03\x01\x00\x01", "not one memory of 64 bits"),
            (head + b"\x01\x05\x01\x60\x01\x7c\x00", "values of the type 0x7c"),
        ):
            with tempfile.NamedTemporaryFile(suffix=".wasm") as file:
                file.write(data)
                file.flush()
                ran = called(f"{runs.TOP}/tools/translate", file.name)
            self.assertEqual(ran.returncode, 1)
            self.assertIn(why, ran.stderr.decode())


if __name__ == "__main__":
    unittest.main()

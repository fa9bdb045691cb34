"""The library for C: its header and its functions, as gcc, clang and a compiler of C++ take them; its memory, under valgrind and refused."""
import os
import re
import shutil
import subprocess
import tempfile
import unittest

import runs

HEADER = f"{runs.TOP}/include"
# Files of games that are read in pieces.
PIECES = ["suite/claims.pgn"]

STRICT = ["-Wall", "-Wextra", "-Werror", "-pedantic", "-g", f"-I{HEADER}"]
# So that a program can refuse allocations.
WRAPPED = "-Wl,--wrap=malloc,--wrap=realloc,--wrap=free"


def called(*words, **also):
    return subprocess.run(words, stdin=subprocess.DEVNULL, capture_output=True, text=True, timeout=1200, **also)


def setUpModule():
    runs.make("libraries")


class Library(unittest.TestCase):
    def setUp(self):
        folder = tempfile.TemporaryDirectory()
        self.addCleanup(folder.cleanup)
        self.folder = folder.name

    def build(self, words, source, library=("out/libjatshegi.a",)):
        """Builds a program of tests/c, and returns its path."""
        program = f"{self.folder}/program"
        ran = called(*words, *STRICT, f"{runs.TOP}/tests/c/{source}", *(f"{runs.TOP}/{it}" for it in library), "-o", program)
        self.assertEqual(ran.returncode, 0, ran.stderr)
        return program

    def assert_ends_well(self, *words, **also):
        ran = called(*words, **also)
        self.assertEqual(ran.returncode, 0, ran.stdout + ran.stderr)
        return ran.stdout

    def wants(self, tool):
        if not shutil.which(tool):
            self.skipTest(f"{tool} is not on the path")

    def test_every_function_by_each_compiler(self):
        for words in (["gcc", "-std=c11"], ["clang", "-std=c11"], ["g++", "-std=c++17", "-x", "c++"], ["clang++", "-std=c++17", "-x", "c++"]):
            with self.subTest(compiler=words[0]):
                self.wants(words[0])
                # What comes after the sources isn't C++.
                archive = [f"-L{runs.TOP}/out", "-l:libjatshegi.a"] if "-x" in words else [f"{runs.TOP}/out/libjatshegi.a"]
                program = f"{self.folder}/program"
                ran = called(*words, *STRICT, f"{runs.TOP}/tests/c/every.c", *archive, "-o", program)
                self.assertEqual(ran.returncode, 0, ran.stderr)
                self.assertIn(" 0 failed", self.assert_ends_well(program))

    def test_the_habits_of_c(self):
        for words in (["gcc", "-std=c11"], ["g++", "-std=c++17", "-x", "c++"]):
            with self.subTest(compiler=words[0]):
                archive = [f"-L{runs.TOP}/out", "-l:libjatshegi.a"] if "-x" in words else [f"{runs.TOP}/out/libjatshegi.a"]
                program = f"{self.folder}/program"
                ran = called(*words, *STRICT, f"{runs.TOP}/tests/c/habits.c", *archive, "-o", program)
                self.assertEqual(ran.returncode, 0, ran.stderr)
                # (what a thread keeps of freed memory would count as held)
                self.assertIn(" 0 failed", self.assert_ends_well(program, env={"GLIBC_TUNABLES": "glibc.malloc.tcache_count=0"}))

    def test_every_function_of_the_shared_library(self):
        program = self.build(["cc", "-std=c11"], "every.c", ["out/libjatshegi.so"])
        for folder in ("out", "release/x86_64-linux/lib"):
            self.assertIn(" 0 failed", self.assert_ends_well(program, env={"LD_LIBRARY_PATH": f"{runs.TOP}/{folder}"}), folder)

    def test_every_function_of_the_released_archive(self):
        program = self.build(["cc", "-std=c11"], "every.c", ["release/x86_64-linux/lib/libjatshegi.a"])
        self.assertIn(" 0 failed", self.assert_ends_well(program))

    def test_the_program_of_the_page(self):
        with open(f"{runs.TOP}/docs/C.md", encoding="utf-8") as page:
            source = page.read().split("```c\n")[1].split("```")[0]
        with open(f"{self.folder}/page.c", "w", encoding="utf-8") as file:
            file.write(source)
        ran = called("cc", "-std=c11", *STRICT, f"{self.folder}/page.c", f"{runs.TOP}/out/libjatshegi.a", "-o", f"{self.folder}/page")
        self.assertEqual(ran.returncode, 0, ran.stderr)
        self.assertEqual(self.assert_ends_well(f"{self.folder}/page"), "rnbqkbnr/pppppppp/8/8/4P3/8/PPPP1PPP/RNBQKBNR b KQkq e3 0 1: 20 legal moves\n")

    def test_every_function_on_the_first_amd64(self):
        """A processor without SSE3 and what came after it; and no instruction of theirs is in the library."""
        self.wants("objdump")
        shown = subprocess.run(["objdump", "-d", "--no-show-raw-insn", f"{runs.TOP}/out/libjatshegi.a"], capture_output=True, text=True, check=True).stdout
        self.assertIsNone(re.search(r"\t(popcnt|pshufb|pblend\w*|pextr[bdq]|pinsr[bdq]|v\w+ |lzcnt|andn|bl\w+ )", shown))
        self.wants("qemu-x86_64")
        program = self.build(["cc", "-std=c11", "-static"], "every.c")
        self.assertIn(" 0 failed", self.assert_ends_well("qemu-x86_64", "-cpu", "qemu64,-sse3,-ssse3,-sse4a,-cx16,-popcnt", program))

    def test_the_perft_of_the_page(self):
        with open(f"{runs.TOP}/docs/C.md", encoding="utf-8") as page:
            function = page.read().split("```c\n")[2].split("```")[0]
        main = 'int main(void) {\n    static struct jatshegi_keys keys;\n    struct jatshegi_board board = JATSHEGI_NO_BOARD;\n    jatshegi_keys_fill(&keys);\n'
        main += '    if (jatshegi_board_new(&keys, &board) != JATSHEGI_OK) return 1;\n    printf("%u\\n", (unsigned)perft(&board, 4));\n'
        main += "    jatshegi_board_free(&board);\n    return 0;\n}\n"
        with open(f"{self.folder}/perft.c", "w", encoding="utf-8") as file:
            file.write(f'#include <stdio.h>\n#include <stdlib.h>\n#include "jatshegi.h"\n{function}{main}')
        ran = called("cc", "-std=c11", *STRICT, f"{self.folder}/perft.c", f"{runs.TOP}/out/libjatshegi.a", "-o", f"{self.folder}/perft")
        self.assertEqual(ran.returncode, 0, ran.stderr)
        self.assertEqual(self.assert_ends_well(f"{self.folder}/perft"), "197281\n")

    def test_no_error_and_no_leak_under_valgrind(self):
        self.wants("valgrind")
        program = self.build(["cc", "-std=c11"], "every.c")
        self.assert_ends_well("valgrind", "--error-exitcode=9", "--leak-check=full", "--errors-for-leak-kinds=all", program)

    def test_boards_on_several_threads(self):
        program = self.build(["cc", "-std=c11", "-pthread"], "threads.c")
        self.assert_ends_well(program, "2000")
        self.wants("valgrind")
        self.assert_ends_well("valgrind", "--tool=helgrind", "--error-exitcode=9", program, "20")

    def test_a_text_cut_into_pieces(self):
        """Its games, its faults and what is passed over are those of the whole text; of the texts of the program, and of files."""
        program = self.build(["cc", "-std=c11", "-O1"], "pieces.c")
        files = [f"{runs.TOP}/{path}" for path in PIECES]
        said = self.assert_ends_well(program, *files)
        games, faults, ways = map(int, re.fullmatch(r"(\d+) games, (\d+) faults, (\d+) ways\n", said).groups())
        self.assertGreater(games, 20)
        self.assertGreater(faults, 10)
        self.assertEqual(ways, 4 * 18 + 3 * 3 + 3 * len(files))

    def test_the_reader_of_the_page(self):
        with open(f"{runs.TOP}/docs/C.md", encoding="utf-8") as page:
            function = next(part for part in page.read().split("```c\n") if "read_games" in part).split("```")[0]
        main = 'int main(void) {\n    static struct jatshegi_keys keys;\n    struct jatshegi_board board = JATSHEGI_NO_BOARD;\n    jatshegi_keys_fill(&keys);\n'
        main += "    if (jatshegi_board_new(&keys, &board) != JATSHEGI_OK || !read_games(stdin, &board)) return 1;\n    jatshegi_board_free(&board);\n    return 0;\n}\n"
        with open(f"{self.folder}/read.c", "w", encoding="utf-8") as file:
            file.write(f'#include <stdio.h>\n#include <stdlib.h>\n#include <string.h>\n#include "jatshegi.h"\n{function}{main}')
        built = called("cc", "-std=c11", *STRICT, f"{self.folder}/read.c", f"{runs.TOP}/out/libjatshegi.a", "-o", f"{self.folder}/read")
        self.assertEqual(built.returncode, 0, built.stderr)
        text = "1. e4 *\n1. e5 *\n[A \"b\"]\n1. d4 {" + "x" * 200_000 + "} 1-0\n"
        ran = subprocess.run([f"{self.folder}/read"], input=text, capture_output=True, text=True, timeout=600, check=True)
        self.assertEqual(ran.stdout, "a game of 7 bytes\nno game: a word that names no legal move, or more than one\na game of 200020 bytes\n")

    def test_each_allocation_refused(self):
        program = self.build(["cc", "-std=gnu11", WRAPPED], "refused.c")
        self.assertIn("allocations refused", self.assert_ends_well(program))

    def test_random_calls_of_every_function(self):
        """Nothing outside of an argument is touched, a refused call changes nothing, and each function of the header is done, and refused where it can be."""
        with open(f"{HEADER}/jatshegi.h", encoding="utf-8") as header, open(f"{runs.TOP}/tests/c/fuzz.c", encoding="utf-8") as source:
            declared = re.findall(r"^(?:static inline const char \*|uint32_t |void )jatshegi_(\w+)\(", header.read(), re.M)
            self.assertEqual(set(re.findall(r"^    X\((\w+),", source.read(), re.M)), set(declared))
        for compiler, seeds in (("cc", (1, 2, 3)), ("clang", (4,))):
            with self.subTest(compiler=compiler):
                self.wants(compiler)
                program = self.build([compiler, "-std=c11", "-O1", WRAPPED], "fuzz.c")
                for seed in seeds:
                    said = self.assert_ends_well(program, str(seed), "100000")
                    self.assertRegex(said, r"^steps 100000, calls \d{7}, refused \d{5}\n$")

    def test_random_calls_with_the_checks_of_the_compiler(self):
        sanitizers = ["-fsanitize=address,undefined", "-fno-sanitize-recover=undefined"]
        with open(f"{self.folder}/empty.c", "w", encoding="utf-8") as file:
            file.write("int main(void) { return 0; }\n")
        if called("cc", *sanitizers, f"{self.folder}/empty.c", "-o", f"{self.folder}/empty").returncode != 0:
            self.skipTest("cc has no sanitizers here")
        program = self.build(["cc", "-std=c11", "-O1", *sanitizers, WRAPPED], "fuzz.c")
        # (the program counts itself what is held)
        self.assert_ends_well(program, "7", "20000", env={**os.environ, "ASAN_OPTIONS": "detect_leaks=0"})

    def test_the_heap_for_a_page_gives_back_all_memory(self):
        runs.make("prove", "lent_heap_c")
        kit = os.path.dirname(called("rt", "doc").stdout.strip())
        program = f"{self.folder}/program"
        parts = [f"{runs.TOP}/tests/c/lent.c", f"{runs.TOP}/crates/lent_heap_c/out/liblent_heap_c.a", f"{kit}/c/liblibc_c.a"]
        ran = called("cc", "-std=c11", *STRICT, *parts, "-o", program)
        self.assertEqual(ran.returncode, 0, ran.stderr)
        self.assert_ends_well(program)

    def test_only_the_functions_of_the_header_are_visible(self):
        self.wants("nm")
        with open(f"{HEADER}/jatshegi.h", encoding="utf-8") as file:
            # (a function of the header itself, and a macro, is none of the library)
            lines = [line for line in file if not line.startswith(("static inline", "#define"))]
        declared = {word.split("(")[0].lstrip("*") for word in " ".join(lines).split() if word.startswith("jatshegi_") and "(" in word}
        for words, library in ((["nm", "-g", "--defined-only"], "libjatshegi.a"), (["nm", "-D", "--defined-only"], "libjatshegi.so")):
            shown = {line.split()[-1] for line in called(*words, f"{runs.TOP}/out/{library}").stdout.splitlines() if " T " in line or " D " in line or " B " in line}
            with self.subTest(library=library):
                # (in the shared library each has the version of the interface in which it came)
                self.assertEqual(shown, {f"{name}@@JATSHEGI_1" if library.endswith(".so") else name for name in declared})

    def test_pkg_config(self):
        self.wants("pkg-config")
        said = called("pkg-config", "--cflags", "--libs", "jatshegi", env={**os.environ, "PKG_CONFIG_PATH": f"{runs.TOP}/out"})
        self.assertEqual(said.returncode, 0, said.stderr)
        self.assertIn("-ljatshegi", said.stdout)

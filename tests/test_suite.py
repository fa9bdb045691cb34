"""The suite for other boards: it is what the program says, its runners find what is wrong, and other programs agree with it."""
import json
import os
import re
import shutil
import subprocess
import sys
import tempfile
import unittest

import runs

PATH = os.environ.get("PATH", "") + ":/usr/games"
SUITE = f"{runs.TOP}/suite"
ROWS = [f"{SUITE}/{name}.jsonl" for name in ("laws", "texts", "fens")]
LIBRARY = next(it for it in (f"{runs.TOP}/out/libjatshegi.a", f"{runs.TOP}/release/x86_64-linux/lib/libjatshegi.a") if os.path.exists(it))

# A board and an engine that know one position: the first of the suite.
BOARD = """
class Board:
    def __init__(self, fen): self.text = fen
    def fen(self): return self.text
    def legal(self): return ["a5a4", "a5b5", "a5a6", "a5b6", "d5d6"]
    def san(self, move): return "d6" if move == "d5d6" else "K" + move[2:]
    def status(self): return None
"""
ENGINE = """#!{python}
import sys
for line in sys.stdin:
    if line.startswith("go perft 1"):
        print("a5a4: 1", "a5b5: 1", "a5a6: 1", "a5b6: 1", "d5d6: 1", "", "Nodes searched: 5", sep="\\n", flush=True)
    elif line == "d\\n":
        print("Fen: 8/8/8/K1pP3r/8/8/8/4k3 w - c6 0 2", "Checkers: ", sep="\\n", flush=True)
    elif line == "isready\\n":
        print("readyok", flush=True)
    elif line == "quit\\n":
        break
"""

# The board as one that writes a target only where a legal move captures on it.
ONLY_LEGAL = (
    ("return self.board.fen()", 'return " ".join([self.board.epd(), *self.board.fen().split()[4:]])'),
    ("done(jatshegi_board_fen(&board, value, sizeof value, &length)), put(\"%.*s\", (int)length, value);\n    else if", "put_fen();\n    else if"),
    ("return this.chess.fen();", "const [a, b, c, d, ...rest] = this.chess.fen().split(' ');\n"
     "    return [a, b, c, this.chess.moves({ verbose: true }).some((it) => it.isEnPassant()) ? d : '-', ...rest].join(' ');"),
)
# A mistake: what of the board of this repository becomes what, in Python, in C and in JavaScript, and the question at which it is found.
MISTAKES = {
    "a capture en passant": (
        "legal",
        ("for move in self.board.legal_moves]", "for move in self.board.legal_moves if not self.board.is_en_passant(move)]"),
        ("for (size_t i = 0; i < count; i++) {", "for (size_t i = 0; i < count; i++) {\n"
         "        if (is_en_passant(moves[i])) continue;"),
        ("this.chess.lans();", "this.chess.moves({ verbose: true }).filter((it) => !it.isEnPassant()).map(({ lan }) => lan);"),
    ),
    "an en passant target": ("fen", *ONLY_LEGAL),
    "a repetition": (
        "repetitions",
        ("self.board.repetitions()", "min(self.board.repetitions(), 2)"),
        ('put("%u", (unsigned)number)', 'put("%u", number > 2 ? 2 : (unsigned)number)'),
        ("this.chess.repetitions()", "Math.min(this.chess.repetitions(), 2)"),
    ),
    "a claim": (
        "claims",
        ('("threefold", "fifty")', '("threefold",)'),
        ("CLAIMS[number]", "CLAIMS[number & JATSHEGI_THREEFOLD]"),
        ("this.chess.claims()", "this.chess.claims().filter((it) => it !== 'fifty')"),
    ),
    "a dead position": (
        "status",
        ("STATUSES[self.board.status]", 'STATUSES[self.board.status].replace("dead", "play")'),
        ("STATUSES[number]", "STATUSES[number == JATSHEGI_DEAD ? JATSHEGI_PLAY : number]"),
        ("this.chess.status()", "this.chess.status().replace('dead', 'play')"),
    ),
    "a tree without its variations": (
        "game",
        ("moves.append(shown(*node.children))", "moves.append(shown(node.children[0]))"),
        ("&children)), children > 0;", "&children)), children = children > 0, children > 0;"),
        ("it.parent.children.slice(1)", "[]"),
    ),
    "the kind of a FEN's fault": (
        "fault",
        ('"kings", "pawn_rank"', '"pawn_rank", "kings"'),
        ('"kings", "pawn_rank"', '"pawn_rank", "kings"'),
        ("KINDS[code] ??", "code === 'Kings' ? 'pawn_rank' : KINDS[code] ??"),
    ),
    "the place of a game's fault": (
        "place",
        ("error.place) from None", "error.place + 1) from None"),
        ("*at = (long)taken;", "*at = (long)taken + 1;"),
        ("place?.byte", "place?.byte + 1"),
    ),
}
# What the edits call in C.
CALLED = """
bool is_en_passant(struct jatshegi_move move) {
    uint32_t kinds;
    return jatshegi_board_kinds(&board, move, &kinds) == JATSHEGI_OK && kinds & JATSHEGI_EN_PASSANT;
}
void put_fen(void) {
    size_t length, place = 0;
    done(jatshegi_board_epd(&board, value, sizeof value, &length));
    put("%.*s", (int)length, value);
    done(jatshegi_board_fen(&board, value, sizeof value, &length));
    for (int fields = 0; fields < 4; place++) fields += value[place] == ' ';
    put(" %.*s", (int)(length - place), value + place);
}

bool board_set("""


def read(path):
    with open(path, encoding="utf-8") as file:
        return file.read()


class Suite(unittest.TestCase):
    def setUp(self):
        folder = tempfile.TemporaryDirectory()
        self.addCleanup(folder.cleanup)
        self.folder = folder.name

    def write(self, name, text):
        with open(f"{self.folder}/{name}", "w", encoding="utf-8") as file:
            file.write(text)
        return file.name

    def said(self, *words):
        """The lines that a runner prints before the last, which counts them."""
        ran = subprocess.run(words, cwd=self.folder, capture_output=True, text=True, timeout=runs.MOST_SECONDS)
        *lines, last = ran.stdout.splitlines() or [""]
        found = [line for line in lines if not line.startswith("not asked: ")]
        self.assertRegex(last, rf"^\d+ rows, {len(found)} differences$", ran.stderr)
        self.assertEqual(ran.returncode, int(bool(found)), ran.stderr)
        return lines

    def edited(self, name, *edits):
        """A board of suite/boards, with these edits, in the folder."""
        text = read(f"{SUITE}/boards/{name}")
        here = f"{SUITE}/boards"
        places = {"ours.py": ('f"{os.path.dirname(os.path.realpath(__file__))}/../../python"', f'"{runs.TOP}/python"'),
                  "ours.mjs": ("'../../web/jatshegi/src/node.js'", f"'file://{runs.TOP}/web/jatshegi/src/node.js'"),
                  "ours.c": ("\nbool board_set(", CALLED)}
        for old, new in (places[name], *edits):
            self.assertEqual(text.count(old), 1, f"{here}/{name}: {old}")
            text = text.replace(old, new)
        return self.write(name, text)

    def of_python(self, *words):
        return self.said(sys.executable, f"{SUITE}/run_class.py", *words)

    def of_engine(self, *words):
        return self.said(sys.executable, f"{SUITE}/run_uci.py", *words)

    def of_javascript(self, *words):
        return self.said("node", f"{SUITE}/run.mjs", *words)

    def built(self, source):
        """The runner with a board in C."""
        strict = ["-std=c11", "-Wall", "-Wextra", "-Werror", "-pedantic", f"-I{SUITE}/boards", f"-I{runs.TOP}/include"]
        ran = subprocess.run(["cc", *strict, f"{SUITE}/run.c", source, LIBRARY, "-o", f"{self.folder}/run"], capture_output=True, text=True)
        self.assertEqual(ran.returncode, 0, ran.stderr)
        return f"{self.folder}/run"

    def chosen(self):
        """A file with some rows of each sort, so that each mistake shows."""
        rows = [json.loads(line) for path in ROWS for line in read(path).splitlines()]
        sorts = (
            *(lambda row, when=when: row.get("target") == when for when in ("legal", "attacked", "always")),
            lambda row: row.get("repetitions", 0) > 2,
            lambda row: "fifty" in row.get("claims", ()),
            lambda row: row.get("status") == "dead",
            lambda row: "variations" in json.dumps(row.get("game", "")),
            lambda row: "kings" in row.get("faults", ()),
            lambda row: "at" in row and "faults" in row,
        )
        found = [row for sort in sorts for row in list(filter(sort, rows))[:3]]
        return self.write("rows.jsonl", "".join(json.dumps(row, separators=(",", ":"), ensure_ascii=False) + "\n" for row in found))


class Rows(Suite):
    def test_they_are_what_the_program_says(self):
        ran = subprocess.run(["tools/suite", "--check"], cwd=runs.TOP, capture_output=True, text=True)
        self.assertEqual(ran.returncode, 0, ran.stdout + ran.stderr)

    def test_the_page_counts_them(self):
        page = read(f"{SUITE}/README.md")
        for name in ("laws", "texts", "fens"):
            rows = len(read(f"{SUITE}/{name}.jsonl").splitlines())
            self.assertIn(f"`{name}.jsonl` has {rows:,} ", " ".join(page.split()))
        kinds = {kind for path in ROWS for line in read(path).splitlines() for kind in json.loads(line).get("faults", ())}
        self.assertEqual(set(), kinds - set(re.findall(r"`(\w+)`", page)))


class Runners(Suite):
    def test_they_are_short(self):
        for name in ("run.c", "run.mjs"):
            self.assertLessEqual(len(read(f"{SUITE}/{name}").splitlines()), 100, name)

    def test_our_board_in_python(self):
        self.assertEqual(self.of_python("ours:Board"), [])

    def test_our_board_as_an_engine(self):
        self.assertEqual(self.of_engine(f"{SUITE}/boards/uci.py"), ["not asked: san"])

    def test_our_board_in_c(self):
        self.assertEqual(self.said(self.built(f"{SUITE}/boards/ours.c"), "always", *ROWS), [])

    @unittest.skipUnless(shutil.which("node"), "node is not on the path")
    def test_our_board_in_javascript(self):
        self.assertEqual(self.of_javascript(f"{SUITE}/boards/ours.mjs"), [])

    def test_a_board_that_has_little_is_asked_that(self):
        self.write("one.py", BOARD)
        engine = self.write("engine", ENGINE.format(python=sys.executable))
        os.chmod(engine, 0o755)
        row = json.loads(read(ROWS[0]).splitlines()[0])
        rows = self.write("row.jsonl", json.dumps(row) + "\n")
        left = ["not asked: check; checkers; status; claims; repetitions; attacks"]
        self.assertEqual(self.of_python("one:Board", rows), left)
        self.assertEqual(self.of_engine(engine, rows), ["not asked: san; status; claims; repetitions; attacks"])
        wrong = {**row, "at": row["at"].replace("c6", "-"), "check": True, "checkers": ["h5"], "legal": {**row["legal"], "d5c6": "dxc6"}}
        rows = self.write("row.jsonl", json.dumps(wrong) + "\n")
        self.assertEqual([it.split(": ")[1] for it in self.of_engine(engine, rows)[:-1]], ["fen", "legal", "check", "checkers"])
        self.assertEqual([it.split(": ")[1] for it in self.of_python("one:Board", rows)[:-1]], ["fen", "legal", "san"])
        self.assertEqual(self.of_python("one:Board", ROWS[1])[-1], "not asked: game")
        self.write("two.py", f"import sys\nsys.path.insert(0, '{runs.TOP}/python')\nimport jatshegi\nclass Board(jatshegi.Board): pass\n")
        self.assertEqual(self.of_python("two:Board", ROWS[2]), ["not asked: fault"])
        accepted = self.of_python("one:Board", ROWS[2])
        self.assertEqual(len(accepted), len(read(ROWS[2]).splitlines()))
        self.assertRegex(accepted[0], r"^1 Fields: .*: accepted: 4k3/8/8/8/8/8/8/4K3 w -, which is to be refused: bad_fen or fields$")

    def test_a_board_that_fails_is_asked_on(self):
        """A board that raises errors, and an engine that ends itself, at one question or at a move."""
        rows = self.write("row.jsonl", "".join(line + "\n" for line in read(ROWS[0]).splitlines()[:3]))
        self.edited("ours.py", ("return self.board.is_check()", "raise ValueError('no')"))
        self.assertEqual([line.split(": ", 1)[1] for line in self.of_python("ours:Board", rows)],
                         ["check: ValueError('no') for False", "check: ValueError('no') for False", "check: ValueError('no') for True"])
        self.edited("ours.py", ("return self.board.fen()", "raise SystemExit"))
        found = [line.split(": ", 1)[1] for line in self.of_engine(shutil.copy(f"{SUITE}/boards/uci.py", self.folder), rows)]
        self.assertEqual(found[0].split(" for ")[0], "fen: ChildProcessError('the engine ends itself')")
        self.assertEqual(found[1].split(" for ")[0], "legal: ChildProcessError('the engine has ended itself here')")
        self.assertEqual(len(found), 3 * 8 + 1)
        self.edited("ours.py", ("self.board.push_uci(move)", "raise ValueError('no')"))
        self.assertEqual([line.split(": ", 1)[1] for line in self.of_python("ours:Board", rows)], ["refused: ValueError('no')"])
        if shutil.which("node"):
            module = self.edited("ours.mjs", ("return this.chess.isCheck();", "throw new Error('no');"))
            found = [line.split(": ", 1)[1] for line in self.of_javascript(module, rows)]
            self.assertEqual(found, ['check: "Error: no" for false'] * 2 + ['check: "Error: no" for true'])

    def assert_found(self, lines, question, mistake):
        with self.subTest(mistake=mistake):
            self.assertGreater(len(lines), 0)
            for line in lines:
                self.assertIn(f": {question}: ", line)

    def test_each_mistake_is_found_and_named(self):
        rows = self.chosen()
        for mistake, (question, of_python, of_c, of_javascript) in MISTAKES.items():
            self.edited("ours.py", of_python)
            self.assert_found(self.of_python("ours:Board", rows), question, f"{mistake}, in Python")
            if question not in ("game", "fault", "place"):
                engine = shutil.copy(f"{SUITE}/boards/uci.py", self.folder)
                positions = self.write("laws.jsonl", "".join(f"{line}\n" for line in read(rows).splitlines() if '"legal"' in line))
                self.assert_found(self.of_engine(engine, positions)[:-1], question, f"{mistake}, of an engine")
            self.assert_found(self.said(self.built(self.edited("ours.c", of_c)), "always", rows), question, f"{mistake}, in C")
            if shutil.which("node"):
                self.assert_found(self.of_javascript(self.edited("ours.mjs", of_javascript), rows), question, f"{mistake}, in JavaScript")

    def test_a_board_of_another_convention(self):
        """A target only where a legal move captures: nothing differs by that convention, and by the others each row whose target is left out."""
        rows = self.chosen()
        targets = [json.loads(line).get("target") for line in read(rows).splitlines()]
        wanted = {"legal": 0, "attacked": targets.count("attacked"), "always": targets.count("attacked") + targets.count("always")}
        of_python, of_c, of_javascript = ONLY_LEGAL
        self.edited("ours.py", of_python)
        program, module = self.built(self.edited("ours.c", of_c)), self.edited("ours.mjs", of_javascript)
        for when, count in wanted.items():
            with self.subTest(when=when):
                self.assertEqual(len(self.of_python("--target", when, "ours:Board", rows)), count)
                self.assertEqual(len(self.said(program, when, rows)), count)
                if shutil.which("node"):
                    self.assertEqual(len(self.of_javascript("--target", when, module, rows)), count)

    def test_what_is_no_convention_or_no_file(self):
        program = [sys.executable, f"{SUITE}/run_class.py"]
        for words in (["--target", "never", "ours:Board"], ["ours:Board", "none.jsonl"], []):
            self.assertNotEqual(subprocess.run([*program, *words], capture_output=True, cwd=self.folder).returncode, 0, words)
        program = self.built(f"{SUITE}/boards/ours.c")
        for words in (["never", ROWS[2]], ["always", "none.jsonl"], ["always"]):
            self.assertEqual(subprocess.run([program, *words], capture_output=True).returncode, 2, words)


class Others(Suite):
    @unittest.skipUnless(shutil.which("stockfish", path=PATH), "stockfish is not installed")
    def test_over_a_thousand_random_positions_and_the_suite(self):
        ran = subprocess.run(["tools/peers", "1000"], cwd=runs.TOP, capture_output=True, text=True, env={**os.environ, "PATH": PATH})
        self.assertEqual(ran.returncode, 0, ran.stdout + ran.stderr)
        self.assertRegex(ran.stdout, r"^stockfish: 2\d+ rows, 0 differences\n")


if __name__ == "__main__":
    unittest.main()

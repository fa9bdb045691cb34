"""What the program `chess` has to write: runs, each with its words, its input, and what is wanted of it.

The answers are those of the FIDE Laws, of the PGN standard and of the UCI protocol, as docs/FORMATS.md has them.
"""
import contextlib
import ctypes
import dataclasses
import fcntl
import mmap
import os
import platform
import shutil
import subprocess
import tempfile
import unittest

TOP = os.path.dirname(os.path.dirname(os.path.realpath(__file__)))
# With JATSHEGI_RELEASED=1 in the environment, tests run over the programs and libraries of release/. Nothing is proved or built then.
RELEASED = os.environ.get("JATSHEGI_RELEASED") == "1"


def program(name):
    """The path of a program: the released one with JATSHEGI_RELEASED=1, otherwise the built one. Raises `SkipTest` for a program that release/ lacks."""
    path = f"{TOP}/release/{platform.machine()}-linux/bin/{name}" if RELEASED else f"{TOP}/crates/{name}/out/{name}"
    if RELEASED and not os.path.exists(path):
        raise unittest.SkipTest(f"release/ has no program {name}")
    return path


BUILT = program("chess")
with open(f"{TOP}/VERSION", encoding="utf-8") as text:
    VERSION = text.read().strip()

# No run takes a second, but for a machine with much else to do.
MOST_SECONDS = 600

SEVEN_TAGS = """\
[Event "?"]
[Site "?"]
[Date "????.??.??"]
[Round "?"]
[White "?"]
[Black "?"]
[Result "%s"]
"""


def help_of(program):
    """The whole text of a program's `--help`, as tests/help keeps it."""
    with open(f"{TOP}/tests/help/{program}.txt", encoding="utf-8") as kept:
        return kept.read().replace("VERSION", VERSION, 1)


@contextlib.contextmanager
def failing_input(given):
    """A file whose reads give these bytes, and then fail: Linux shows the memory of this process as a file, and a read of an address without memory fails."""
    system = ctypes.CDLL(None)
    system.mmap.argtypes = [ctypes.c_void_p, ctypes.c_size_t, ctypes.c_int, ctypes.c_int, ctypes.c_int, ctypes.c_long]
    system.mmap.restype = ctypes.c_void_p
    system.munmap.argtypes = [ctypes.c_void_p, ctypes.c_size_t]
    size = -(-len(given) // mmap.PAGESIZE) * mmap.PAGESIZE
    start = system.mmap(None, size + mmap.PAGESIZE, mmap.PROT_READ | mmap.PROT_WRITE, mmap.MAP_PRIVATE | mmap.MAP_ANONYMOUS, -1, 0)
    system.munmap(start + size, mmap.PAGESIZE)
    file = os.open("/proc/self/mem", os.O_RDONLY)
    try:
        ctypes.memmove(start + size - len(given), given, len(given))
        os.lseek(file, start + size - len(given), os.SEEK_SET)
        yield file
    finally:
        os.close(file)
        system.munmap(start, size)


@dataclasses.dataclass
class Run:
    """A run by name. Without `output` or `error` that one is not compared (a text that no page fixes); each `of_error` has to be a part of it."""

    name: str
    words: list
    given: str = ""
    output: str | None = ""
    error: str | None = ""
    status: int = 0
    of_error: tuple = ()
    # What the standard input or output is, where it is another than a pipe.
    reads_folder: bool = False
    writes_to_full: bool = False
    writes_to_closed: bool = False


@dataclasses.dataclass
class Ended:
    output: bytes
    error: bytes
    status: int


def run(program, it):
    """Runs the program by this run's words and input."""
    given = it.given.encode("latin-1")
    streams = {"stdout": subprocess.PIPE, "stderr": subprocess.PIPE, "timeout": MOST_SECONDS}
    if it.reads_folder:
        folder = os.open("/", os.O_RDONLY)
        try:
            ran = subprocess.run([program, *it.words], stdin=folder, **streams)
        finally:
            os.close(folder)
    elif it.writes_to_full:
        with open("/dev/full", "wb") as full:
            ran = subprocess.run([program, *it.words], input=given, **{**streams, "stdout": full})
    elif it.writes_to_closed:
        reader, writer = os.pipe()
        os.close(reader)
        try:
            ran = subprocess.run([program, *it.words], input=given, **{**streams, "stdout": writer})
        finally:
            os.close(writer)
    else:
        ran = subprocess.run([program, *it.words], input=given, **streams)
    return Ended(ran.stdout or b"", ran.stderr, ran.returncode)


def board(name, *pairs, **also):
    """A run of `board`: lines, each with its answer after it, or with None where the line has none."""
    lines, answers = pairs[0::2], pairs[1::2]
    output = "".join(f"{answer}\n" for answer in answers if answer is not None)
    return Run(name, ["board"], "".join(f"{line}\n" for line in lines), output, **also)


def board_rows(path):
    """Runs of `board` in a file: `# ` and a name, lines after `< `, each with the lines of its answer after `> `."""
    with open(path, encoding="utf-8", newline="\n") as rows:
        for text in rows.read().split("\n\n"):
            lines = text.rstrip("\n").split("\n")
            given, output = ("".join(f"{line[2:]}\n" for line in lines if line[:1] == mark) for mark in "<>")
            yield Run(lines[0].removeprefix("# ").rstrip("."), ["board"], given, output)


def pgn(name, given, output, **also):
    return Run(name, ["pgn"], given, output, **also)


def played(*moves):
    """Moves and their answers."""
    return [text for move in moves for text in (f"play {move}", "ok")]


# Four plies after which the men are as before.
KNIGHTS = played("g1f3", "g8f6", "f3g1", "f6g8")
FOOLS_MATE = played("f3", "e5", "g4", "Qh4")
SCHOLARS = "1. e4 e5 2. Bc4 Nc6 3. Qh5 Nf6 4. Qxf7#"

RUNS = [
    # The words
    Run("no word is refused", [], output="", error=None, status=1, of_error=("Usage",)),
    Run("another word is refused", ["boards"], output="", error=None, status=1, of_error=("boards",)),
    Run("an empty word is refused", [""], output="", error=None, status=1, of_error=("board, uci, pgn",)),
    Run("a word with a dash is refused", ["board", "--versions"], output="", error=None, status=1, of_error=("--versions",)),
    Run("two words are refused", ["board", "board"], output="", error=None, status=1, of_error=("board",)),
    Run("help is on the standard output", ["--help"], output=help_of("chess"), status=1),
    Run("help on a word is the same", ["board", "--help"], output=help_of("chess"), status=1),
    Run("the version is on the standard output", ["--version"], output=f"chess {VERSION}\n", status=1),
    # The board
    board("nothing is asked"),
    board("a capture en passant that would expose the king",
          "set 8/8/8/K1pP3r/8/8/8/4k3 w - c6 0 2", "ok",
          "moves", "a5a4 a5b5 a5a6 a5b6 d5d6",
          "play d5c6", "refused 2 Illegal",
          "fen", "8/8/8/K1pP3r/8/8/8/4k3 w - c6 0 2"),
    board("mate on the second move", *FOOLS_MATE,
          "status", "mate", "moves", "none", "checks", "h4", "best 1", "none",
          "fen", "rnb1kbnr/pppp1ppp/8/4p3/6Pq/5P2/PPPPP2P/RNBQKBNR w KQkq - 1 3"),
    board("the best moves of the start", "best 1", "b1c3 cp 18", "best 2", "b1c3 cp 0", "best 0", "refused 7 Argument", "best 17", "refused 7 Argument"),
    board("mate before the draw by 75 moves",
          "set 7k/8/6K1/8/8/8/8/R7 w - - 149 90", "ok", "claim Ra8", "fifty", *played("Ra8#"), "status", "mate",
          "back", "ok", *played("a1a2"), "status", "seventyfive", "path", "1"),
    board("moves in an order that castles",
          "set r3k2r/8/8/8/8/8/8/R3K2R w KQkq - 0 1", "ok", *played("O-O", "e8c8"), "fen", "2kr3r/8/8/8/8/8/8/R4RK1 w - - 2 2"),
    board("promotion", "set 4k3/P7/8/8/8/8/8/4K3 w - - 0 1", "ok", "play a8", "refused 2 Illegal", "play a9", "refused 1 Form",
          *played("a8Q"), "fen", "Q3k3/8/8/8/8/8/8/4K3 b - - 0 1", "checks", "a8"),
    board("texts of moves", "set 4k3/8/8/8/8/2N5/8/4K1N1 w - - 0 1", "ok", "play Ne2", "refused 3 Ambiguous", *played("Nge2")),
    board("refused lines", "chess", "refused 6 Command", "step", "refused 7 Argument", "step 0", "refused 1 NoSuch", "back", "refused 2 AtRoot",
          "set", "refused 1 Fields", "comment }", "refused 4 BadComment", "nag 256", "refused 7 Argument", "", None, "new", "ok"),
    board("variations and notes", *played("e4"), "nag 1", "ok", "comment a  b", "ok", *played("e5"), "start", "ok", "end", "ok", "path", "0.0",
          "goto 0", "ok", "path", "0", "goto 0.1", "refused 1 NoSuch",
          "pgn", SEVEN_TAGS % "*" + "\n1. e4 $1 {a b} 1... e5 *\n"),
    board("the longest comment", "comment " + "a" * 1_048_568, "ok", "eval", "0"),
    board("the longest line", "a" * 1_048_576, "refused 6 Command", "a" * 1_048_577, "refused 8 LongLine", "eval", "0"),
    board("a line of 20,000 plies", *KNIGHTS * 5_000, "play g1f3", "refused 2 TooLong", "start", "ok",
          "goto 0" + ".0" * 19_999, "ok", "play g1f3", "refused 2 TooLong",
          "goto 0" + ".0" * 20_000, "refused 1 NoSuch", "goto 0" + ".0" * 20_000 + ".", "refused 7 Argument",
          "start", "ok", "end", "ok", "goto 0", "ok", "delete", "ok", "path", "-", "end", "ok", "path", "-"),
    *board_rows(f"{TOP}/tests/board.txt"),
    Run("the last line lacks its line feed", ["board"], "new\neval", "ok\n0\n"),
    Run("a carriage return is dropped", ["board"], "new\r\neval\r\n", "ok\n0\n"),
    # Games
    pgn("no game", "", ""),
    pgn("white space and hidden lines alone", " \n% hidden\n\t", ""),
    pgn("a variation", "1.e4 e5 (1...c5 2.Nf3 {x  y} $1) 2.Nf3 *", SEVEN_TAGS % "*" + "\n1. e4 e5 (1... c5 2. Nf3 $1 {x y}) 2. Nf3 *\n\n"),
    pgn("a start of its own", '[FEN "4k3/4p3/8/8/8/8/4P3/4K3 b - - 0 7"] e5! {good} e4 1/2-1/2',
        SEVEN_TAGS % "1/2-1/2" + '[FEN "4k3/4p3/8/8/8/8/4P3/4K3 b - - 0 7"]\n[SetUp "1"]\n\n7... e5 $1 {good} 8. e4 1/2-1/2\n\n'),
    pgn("a comment before Black's move", "1. e4 {c} e5", SEVEN_TAGS % "*" + "\n1. e4 {c} 1... e5 *\n\n"),
    pgn("a value with a quotation mark and a backslash", '[Event "a\\"b\\\\"] *', (SEVEN_TAGS % "*").replace('"?"', '"a\\"b\\\\"', 1) + "\n*\n\n"),
    pgn("tags in another order", f'[Result "1-0"]\n[Black "B"]\n[White "W"]\n[ECO "C20"]\n[Event "E"]\n\n{SCHOLARS} 1-0\n',
        '[Event "E"]\n[Site "?"]\n[Date "????.??.??"]\n[Round "?"]\n[White "W"]\n[Black "B"]\n[Result "1-0"]\n[ECO "C20"]\n\n'
        f"{SCHOLARS} 1-0\n\n"),
    pgn("a game, and then what is none", "* (1. e4) *", SEVEN_TAGS % "*" + "\n*\n\n", error="fault 2 4 Variation\n", status=2),
    pgn("a fault in the third game", "* * (1. e4) *", 2 * (SEVEN_TAGS % "*" + "\n*\n\n"), error="fault 4 4 Variation\n", status=2),
    pgn("an illegal move", "1. e4 e5 2. Ke3 *", "", error="fault 12 3 Move\n", status=2),
    pgn("a comment without an end", "1. e4 {abc", "", error="fault 10 6 Truncated\n", status=2),
    pgn("a marker inside a word", "e4 1-0-1", "", error="fault 3 3 Move\n", status=2),
    # Sessions
    Run("a session says who it is", ["uci"], "uci\njoho isready\nquit\nisready\n",
        "id name chess_uci 1\nid author chess_uci project\noption name Claims type check default false\nuciok\nreadyok\n"),
    Run("the end of the input ends a session", ["uci"], "isready", "readyok\n"),
    Run("searches to a depth", ["uci"], "position startpos moves e2e4\ngo depth 1\ngo depth 2\n",
        "info depth 1 score cp 10 pv b8c6\nbestmove b8c6\n"
        "info depth 1 score cp 10 pv b8c6\ninfo depth 2 score cp -8 pv b8c6\nbestmove b8c6\n"),
    Run("a search of a few moves", ["uci"], "go depth 1 searchmoves e2e4 d2d4\n", "info depth 1 score cp 8 pv d2d4\nbestmove d2d4\n"),
    Run("a position without a move", ["uci"],
        "position fen rnb1kbnr/pppp1ppp/8/4p3/6Pq/5P2/PPPPP2P/RNBQKBNR w KQkq - 1 3\ngo depth 3\n",
        "bestmove 0000\n"),
    Run("positions that are refused", ["uci"], "position startpos moves e2e5\nposition fen 8/8 w\ngo depth 1",
        "info string position refused\ninfo string position refused\ninfo depth 1 score cp 18 pv b1c3\nbestmove b1c3\n"),
    Run("the longest line of a session", ["uci"], "a" * 1_048_576 + "\nisready\n", "readyok\n"),
    Run("a line too long for a session", ["uci"], "a" * 1_048_577 + "\nisready\n", "info string line too long\nreadyok\n"),
    # Streams that fail
    Run("board: a folder is no input", ["board"], reads_folder=True, error="read fault\n", status=3),
    Run("uci: a folder is no input", ["uci"], reads_folder=True, error="read fault\n", status=3),
    Run("pgn: a folder is no input", ["pgn"], reads_folder=True, error="read fault\n", status=3),
    Run("board: no room for the answers", ["board"], "new\n", writes_to_full=True, error="write fault\n", status=3),
    Run("uci: no room for the replies", ["uci"], "isready\n", writes_to_full=True, error="write fault\n", status=3),
    Run("pgn: no room for the games", ["pgn"], "*\n", writes_to_full=True, error="write fault\n", status=3),
    Run("board: a closed output", ["board"], "new\n", writes_to_closed=True, error="write fault\n", status=3),
    Run("uci: a closed output", ["uci"], "isready\n", writes_to_closed=True, error="write fault\n", status=3),
    Run("pgn: a closed output", ["pgn"], "*\n", writes_to_closed=True, error="write fault\n", status=3),
]


# For Linux on arm64: the compiler, and what runs its programs here.
ARM64_TOOLS = ("aarch64-linux-gnu-gcc", "qemu-aarch64")
ARM64_PACKAGES = ("gcc-aarch64-linux-gnu", "libc6-dev-arm64-cross", "qemu-user")


def install(is_there, *packages):
    """Installs packages of Debian's where something of theirs is missing, this is Debian, and the user may. Several files of tests ask for it at once: the
    others wait for the first."""
    if is_there() or os.geteuid() != 0 or not shutil.which("apt-get"):
        return
    with open(f"{tempfile.gettempdir()}/jatshegi-packages.lock", "w", encoding="utf-8") as lock:
        fcntl.flock(lock, fcntl.LOCK_EX)
        if is_there():
            return
        quiet = {"stdin": subprocess.DEVNULL, "stdout": subprocess.DEVNULL, "stderr": subprocess.DEVNULL, "env": {**os.environ, "DEBIAN_FRONTEND": "noninteractive"}}
        subprocess.run(["apt-get", "update", "-qq"], **quiet)
        subprocess.run(["apt-get", "install", "-y", "-qq", "-o", "DPkg::Lock::Timeout=300", *packages], **quiet)


def has_arm64_tools():
    return all(map(shutil.which, ARM64_TOOLS))


def install_arm64_tools():
    """Installs what builds and runs programs for arm64 where it is missing, and returns whether it is there."""
    install(has_arm64_tools, *ARM64_PACKAGES)
    return has_arm64_tools()


# The crates of what is released for arm64.
FOR_ARM64 = ("chess", "chess_games", "arbiter", "perft", "chess_c")


def builds_for_arm64():
    """Whether the gate builds what is released for arm64 again: it proves five crates once more, which on fewer than four processors takes too long."""
    return len(os.sched_getaffinity(0)) >= 4


# The tools whose results release/ contains. JATSHEGI_RELEASED=1 skips a test that needs another tool.
IN_RELEASE = (("libraries",), ("fast",))


def make(tool, *words):
    """Runs a tool that makes what tests need, unless this process or its parent has run it; an error where that failed. With JATSHEGI_RELEASED=1 it runs no tool,
    and raises `SkipTest` if release/ lacks what the tool makes."""
    if RELEASED:
        if (tool, *words) not in IN_RELEASE:
            raise unittest.SkipTest(f"release/ has nothing in the place of tools/{tool} {' '.join(words)}".rstrip())
        return
    mark = "_".join(["JATSHEGI", tool, *(it.lstrip("-") for it in words if it != "--gate")]).upper()
    if mark not in os.environ:
        made = subprocess.run([f"{TOP}/tools/{tool}", *words], stdin=subprocess.DEVNULL, capture_output=True, text=True)
        os.environ[mark] = f"tools/{tool}: {made.stdout[-2000:]}{made.stderr[-2000:]}" if made.returncode else ""
    if os.environ[mark]:
        raise AssertionError(os.environ[mark])

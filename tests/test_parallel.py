"""`tools/in_parallel`, on one machine and on two, and the program that goes on after bad games: collections whose tags come in every
order, with lines that end with a carriage return, and with games that can't be read."""
import contextlib
import getpass
import itertools
import os
import random
import re
import shutil
import socket
import subprocess
import sys
import tempfile
import time
import unittest

import runs

TAGS = ['[Event "E"]', '[White "W"]', '[Result "*"]', '[Opening "Italian"]']
MOVES = ["1. e4 e5 *", "1. d4 {two\nlines} d5\n2. c4 *", "1. Nf3 (1. c4 c5) 1... Nf6 *"]
BAD = '[Site "S"]\n\n1. e4 e4 *\n\n'
GAMES = f"{runs.TOP}/crates/chess_games/out/chess_games"


def games():
    """A game for each order of the tags."""
    return ["\n".join(tags) + f"\n\n{MOVES[number % len(MOVES)]}\n\n" for number, tags in enumerate(itertools.permutations(TAGS))]


def collection(rounds):
    """Games with their tags in every order, some with carriage returns, some without tags or marker, and every few games one that can't be read."""
    odd = [BAD, "1. d4 *\n\n", '[Site "no marker"]\n\n1. c4\n\n', '[FEN "8/8"]\n\n1. e4 *\n\n', '[White "x"\n[Black "y"]\n\n1. e4 1-0\n\n', '[White "a"]\n\n1. e4 1-0\n% [hidden "line"]\n\n']
    texts = []
    for number in range(rounds):
        texts += games() + [odd[number % len(odd)]]
    return "".join(text.replace("\n", "\r\n") if number % 3 == 0 else text for number, text in enumerate(texts)).encode()


def run_script(text, least, options=(), environment=None):
    """What the script writes: the good games, and its reports."""
    with tempfile.TemporaryDirectory() as folder:
        environment = {**os.environ, "PARALLEL_HOME": folder, "CHESS_GAMES": GAMES, "CUT": str(least), **(environment or {})}
        ran = subprocess.run([f"{runs.TOP}/tools/in_parallel", *options], cwd=folder, input=text, capture_output=True, check=False, env=environment)
        return ran.stdout, ran.stderr.decode()


def one_run(text):
    ran = subprocess.run([GAMES], input=text, capture_output=True, timeout=runs.MOST_SECONDS)
    return ran.stdout, ran.stderr.decode()


@unittest.skipUnless(shutil.which("parallel"), "GNU parallel is not installed: the script is not tried (apt-get install parallel)")
class Parallel(unittest.TestCase):
    def test_all_cores_write_what_one_run_writes(self):
        text = collection(20)
        wanted = one_run(text)
        self.assertIn("game 25: fault ", wanted[1])
        for least in (1000, 10_000, 2_000_000):
            with self.subTest(least=least):
                self.assertEqual(run_script(text, least), wanted)

    @unittest.skipUnless(os.path.exists("/usr/sbin/sshd"), "no sshd: the script is not tried on two machines (apt-get install openssh-server)")
    def test_two_machines_write_what_one_run_writes(self):
        text = collection(20)
        with two_hosts() as environment:
            self.assertEqual(run_script(text, 2000, ("-S", "one,two"), environment), one_run(text))


def free_port():
    with socket.socket() as probe:
        probe.bind(("127.0.0.1", 0))
        return probe.getsockname()[1]


def answers(port):
    with socket.socket() as probe:
        return probe.connect_ex(("127.0.0.1", port)) == 0


@contextlib.contextmanager
def two_hosts():
    """Two hosts, one and two, on this machine: an sshd each, with keys of their own; both are taken down at the end."""
    with tempfile.TemporaryDirectory() as folder, contextlib.ExitStack() as stack:
        # An sshd of the superuser asks for this folder.
        if os.geteuid() == 0 and not os.path.isdir("/run/sshd"):
            os.mkdir("/run/sshd", 0o755)
            stack.callback(os.rmdir, "/run/sshd")
        for name in ("host", "user"):
            subprocess.run(["ssh-keygen", "-q", "-t", "ed25519", "-N", "", "-f", f"{folder}/{name}"], check=True)
        shutil.copy(f"{folder}/user.pub", f"{folder}/authorized")
        with open(f"{folder}/client", "w", encoding="utf-8") as client:
            for name in ("one", "two"):
                port = free_port()
                with open(f"{folder}/{name}", "w", encoding="utf-8") as server:
                    server.write(
                        f"Port {port}\nListenAddress 127.0.0.1\nHostKey {folder}/host\nAuthorizedKeysFile {folder}/authorized\nPidFile none\n"
                        "StrictModes no\nUsePAM no\nPasswordAuthentication no\nMaxStartups 100\nMaxSessions 100\n"
                        # Without the user's start-up files, which may write of their own.
                        f"SetEnv HOME={folder}\n"
                    )
                client.write(
                    f"Host {name}\nHostName 127.0.0.1\nPort {port}\nUser {getpass.getuser()}\nIdentityFile {folder}/user\nIdentitiesOnly yes\n"
                    f"StrictHostKeyChecking no\nUserKnownHostsFile /dev/null\nLogLevel ERROR\n"
                )
                daemon = subprocess.Popen(["/usr/sbin/sshd", "-D", "-e", "-f", f"{folder}/{name}"], stderr=subprocess.DEVNULL)
                stack.callback(daemon.wait)
                stack.callback(daemon.terminate)
                end = time.monotonic() + 30
                while not answers(port) and time.monotonic() < end:
                    time.sleep(0.05)
        yield {"PARALLEL_SSH": f"ssh -F {folder}/client"}


class Pieces(unittest.TestCase):
    """`--cut` cuts only where whoever reads the pieces one by one reads what is read of the whole."""

    PARTS = [
        '[Event "E"]', '[White "W"]', '[FEN "8/8"]', '[A "[B \\" x"]', '[C "x" {', '[D "[E "F"]"]', "\n", "\n\n", "\r\n", "\r\n\r\n", " ", "1. e4 e5 *", "1. e4 e4 *",
        "1-0", "1/2-1/2", "*", "{c}", '{\n\n[X "y"] }', "{", "}", "; x * \n", '% [H "i"]\n', "\n%\n\n", "(", ")", "$1-0", "$", "!!!", "e4", "[%clk 0]", "[", "]", '"',
        "\u00ef\u00bb\u00bf", "1. d4 d5 1-0\n\n", "1. e4 (1. d4 *\n\n", '\n\n[Event "Z"]\n\n1. c4 *\n\n', '\n\n[Event "Z"]\n[Site "q"]\n\n1. c4 c4 *\n\n',
    ]

    def read_pieces(self, pieces):
        """The good games of the pieces, and the reports with the games and bytes of the pieces before added."""
        written, reports, games_before, bytes_before = b"", "", 0, 0
        for piece in pieces:
            ran = subprocess.run([GAMES, "--totals"], input=piece, capture_output=True, timeout=runs.MOST_SECONDS)
            written += ran.stdout
            *lines, totals = ran.stderr.decode().splitlines()
            for line in lines:
                number, place, kind = re.fullmatch(r"game (\d+): fault (\d+) (.*)", line).groups()
                reports += f"game {int(number) + games_before}: fault {int(place) + bytes_before} {kind}\n"
            number, count = re.fullmatch(r"games (\d+), bytes (\d+), passed over \d+", totals).groups()
            self.assertEqual(int(count), len(piece))
            games_before += int(number)
            bytes_before += int(count)
        return written, reports

    def test_any_text(self):
        chance = random.Random(2026)
        borders = 0
        for _ in range(400):
            text = "".join(chance.choice(self.PARTS) for _ in range(chance.randrange(2, 40))).encode("latin-1")
            cut = subprocess.run([GAMES, "--cut", "1"], input=text, capture_output=True, check=True).stdout
            pieces = cut.split(b"\0")
            borders += len(pieces) - 1
            self.assertEqual(b"".join(pieces), text)
            if len(pieces) > 1:
                self.assertEqual(self.read_pieces(pieces), one_run(text), text)
        self.assertGreater(borders, 100)

    def test_a_border_before_each_good_section(self):
        text = "".join(games()).encode()
        pieces = subprocess.run([GAMES, "--cut", "1"], input=text, capture_output=True, check=True).stdout.split(b"\0")
        self.assertEqual(len(pieces), len(games()))
        large = subprocess.run([GAMES, "--cut", "500"], input=text, capture_output=True, check=True).stdout.split(b"\0")
        self.assertTrue(all(len(piece) >= 500 for piece in large[:-1]))

    def test_where_no_game_ends(self):
        for text in ('*\n[A "b"]', "*\n\n[%b]", 'e4\n\n[A "b"]', '* {\n\n[A "b"]}', '* ; c\n\n[A "b"]', '{\n\n[A "b"]} *\n\n[A "b"]', 'e41-0\n\n[A "b"]'):
            with self.subTest(text=text):
                self.assertEqual(subprocess.run([GAMES, "--cut", "1"], input=text.encode(), capture_output=True, check=True).stdout.decode(), text)

    def test_a_piece_has_its_least_bytes_and_ends_with_its_game(self):
        first, second, third = '1-0\r\n\r\n', '[A "b"]\n\ne4 *\n\n', '[A "c"]\n'
        for least in ("1", "5"):
            cut = subprocess.run([GAMES, "--cut", least], input=(first + second + third).encode(), capture_output=True, check=True).stdout
            self.assertEqual(cut.decode(), "\0".join((first, second, third)))

    def test_a_zero_byte_is_refused(self):
        ran = subprocess.run([GAMES, "--cut", "1"], input=b"{\0} *", capture_output=True)
        self.assertEqual((ran.returncode, ran.stderr), (3, b"a zero byte in the input\n"))


class GoodGames(unittest.TestCase):
    """`chess_games` writes the good games as `chess pgn` does, and reports the others."""

    def run_games(self, collection, *words):
        self.assertTrue(os.path.isfile(GAMES), "the program is not built")
        return subprocess.run([GAMES, *words], input=collection, capture_output=True, text=True, timeout=runs.MOST_SECONDS)

    def good_alone(self, collection):
        return subprocess.run([runs.BUILT, "pgn"], input=collection, capture_output=True, text=True, check=True).stdout

    def test_good_games_alone(self):
        collection = "".join(games())
        ran = self.run_games(collection)
        self.assertEqual((ran.stdout, ran.stderr, ran.returncode), (self.good_alone(collection), "", 0))

    def test_no_good_game(self):
        for text, status, reports in ((" \n", 0, 0), ("x", 2, 1), ('[A "\n\n[B "', 2, 2)):
            with self.subTest(text=text):
                ran = self.run_games(text)
                self.assertEqual((ran.stdout, ran.returncode, len(ran.stderr.splitlines())), ("", status, reports))

    def test_bad_games_are_reported_by_number_and_place(self):
        good = games()
        before, between = "".join(good[:7]), "".join(good[7:])
        ran = self.run_games(before + BAD + between + BAD)
        places = [len(before) + 18, len(before + BAD + between) + 18]
        self.assertEqual(ran.stdout, self.good_alone("".join(good)))
        self.assertEqual(ran.stderr, f"game 8: fault {places[0]} 3 Move\ngame {len(good) + 2}: fault {places[1]} 3 Move\n")
        self.assertEqual(ran.returncode, 2)

    def test_parts_together_are_all_games(self):
        good = games()
        collection = "".join(good[:7]) + BAD + "".join(good[7:])
        ran = [self.run_games(collection, "--part", f"{number}/3") for number in (1, 2, 3)]
        shares = [re.split(r"(?<=\n\n)(?=\[Event )", each.stdout) for each in ran]
        one = re.split(r"(?<=\n\n)(?=\[Event )", self.good_alone("".join(good)))
        self.assertEqual([each.returncode for each in ran], [0, 2, 0])
        self.assertEqual([each.stderr for each in ran], ["", "game 8: fault {} 3 Move\n".format(len("".join(good[:7])) + 18), ""])
        self.assertEqual(sorted(game for share in shares for game in share), sorted(one))
        self.assertEqual(shares[0], [one[number if number < 7 else number - 1] for number in range(0, len(one) + 1, 3)])

    def test_a_part_of_few_games(self):
        collection = "*\n\n" + BAD + '[Site "?"]\n\n*\n'
        both = self.run_games(collection)
        for part, good, bad in (("1/1", 2, 1), ("2/2", 0, 1), ("1/3", 1, 0), ("4/4", 0, 0)):
            with self.subTest(part=part):
                ran = self.run_games(collection, "--part", part)
                self.assertEqual((ran.stdout, ran.returncode), (both.stdout[:len(both.stdout) * good // 2], 2 * bad))

    def test_words(self):
        self.assertEqual(self.run_games("", "--progress").returncode, 0)
        self.assertEqual(self.run_games("", "--help").stdout, runs.help_of("chess_games"))
        wrong_parts = [["--part", part] for part in ("4/3", "0/3", "3", "a/b", "1/0", "1/2/3", "")]
        for words in (["x"], *wrong_parts, *(["--cut", size] for size in ("0", "x", "-1", ""))):
            wrong = self.run_games("", *words)
            self.assertEqual((wrong.returncode, wrong.stdout), (1, ""))

    def test_a_failing_read_is_the_end(self):
        folder = os.open("/", os.O_RDONLY)
        try:
            ran = subprocess.run([GAMES], stdin=folder, capture_output=True, text=True, timeout=runs.MOST_SECONDS)
        finally:
            os.close(folder)
        self.assertEqual((ran.returncode, ran.stderr), (3, "read fault\n"))


def speeds():
    """The wall time of the script by one, two and four processes, and on two machines, beside that of one run."""
    texts = collection(1) + open(f"{runs.TOP}/crates/corpus/stdout", "rb").read() * 1500
    print(f"{len(texts)} bytes")
    begun = time.monotonic()
    wanted = one_run(texts)
    print(f"one run: {time.monotonic() - begun:.1f} s")
    with two_hosts() as environment:
        for options in ("-j1", "-j2", "-j4", "-j1 -S one,two", "-j2 -S one,two"):
            begun = time.monotonic()
            got = run_script(texts, 2_000_000, options.split(), environment)
            print(f"{options}: {time.monotonic() - begun:.1f} s, {'the same' if got == wanted else 'NOT THE SAME'}")


if __name__ == "__main__" and sys.argv[1:] == ["speeds"]:
    speeds()

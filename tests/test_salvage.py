"""`chess_games --salvage`: forms of games as people have them, and random mutations. What is written is read again without a change, what strict reading
accepts is written as ever, and each byte of the input is accounted for.

tests/salvage.jsonl has a row for each form: its name, its bytes (as Latin-1), the movetexts that are written of it, and what is said of it."""
import importlib
import io
import json
import random
import re
import subprocess
import sys
import time
import unittest

import runs
from test_arbiter import rows as rows_of
from test_parallel import BAD, GAMES, games

with open(f"{runs.TOP}/tests/salvage.jsonl", encoding="utf-8") as rows:
    FORMS = [json.loads(row) for row in rows]

TOTALS = re.compile(rb"games (\d+), bytes (\d+), passed over (\d+), repaired (\d+)")
REPAIR = re.compile(rb"game (\d+): repaired (\d+) [A-Z][A-Za-z]+")
FAULT = re.compile(rb"game (\d+): fault (\d+) \d+ [A-Z][A-Za-z]+")
MUTATIONS = 2_000
# What takes a random byte's place: what texts of games are made of, and a few others.
BYTES = b'[]{}()"\\;%$*.,!?+-=#:/ \n\t\0\x1a\xa0\xe2\x80\xa6abcdefghNBRQKOox0123456789<>&~'


def setUpModule():
    runs.make("libraries")
    sys.path.insert(0, f"{runs.TOP}/python")
    global jatshegi
    jatshegi = importlib.import_module("jatshegi")


def tearDownModule():
    sys.path.remove(f"{runs.TOP}/python")


def ran(text, *words):
    ended = subprocess.run([GAMES, *words], input=text, capture_output=True, timeout=runs.MOST_SECONDS)
    assert ended.returncode in (0, 2), (text, ended)
    return ended


def strictly(text):
    return subprocess.run([runs.BUILT, "pgn"], input=text, capture_output=True, timeout=runs.MOST_SECONDS)


def movetexts(written):
    return [" ".join(text.split()) for text in written.decode("latin-1").split("\n\n")[1::2]]


def mutated(chance, text):
    """The text with one to three bytes replaced, left out, or put in."""
    text = bytearray(text)
    for _ in range(chance.randint(1, 3)):
        at = chance.randrange(len(text))
        kept = chance.choice((0, 1))
        put = bytes([chance.choice(BYTES)]) if chance.random() < 0.7 else b""
        text[at:at + 1 - kept] = put
    return bytes(text)


class Salvage(unittest.TestCase):
    def check(self, text):
        """What every run keeps, whatever its input; what it writes."""
        saved = ran(text, "--salvage", "--totals")
        *lines, last = saved.stderr.splitlines()
        said = [int(number) for number in TOTALS.fullmatch(last).groups()]
        repairs, faults = ([line for line in lines if form.fullmatch(line)] for form in (REPAIR, FAULT))
        self.assertEqual(len(repairs) + len(faults), len(lines), lines)
        self.assertEqual((said[1], said[3]), (len(text), len(repairs)))
        self.assertLessEqual(said[2], said[1])
        self.assertEqual(saved.returncode, 2 if faults else 0)
        self.assertTrue(all(int(REPAIR.fullmatch(line)[2]) <= len(text) for line in repairs), repairs)
        again = strictly(saved.stdout)
        self.assertEqual((again.returncode, again.stdout), (0, saved.stdout), text)
        games_again = int(re.match(rb"games (\d+)", ran(saved.stdout, "--totals").stderr)[1])
        self.assertEqual(games_again, said[0] - len(faults), text)
        strict = ran(text)
        if strict.returncode == 0:
            self.assertEqual((strict.stdout, lines), (saved.stdout, []), text)
        return saved

    def test_forms(self):
        for form in FORMS:
            with self.subTest(form=form["name"]):
                saved = self.check(form["bytes"].encode("latin-1"))
                self.assertEqual(movetexts(saved.stdout), form["moves"])
                self.assertEqual([line.split(": ", 1)[1] for line in saved.stderr.decode().splitlines()[:-1]], form["said"])

    def test_collections(self):
        """The forms one after another: each is read as it is alone, and the games between them are untouched."""
        forms = [form for form in FORMS if form["bytes"].startswith("[") and "{" not in form["bytes"] and "\0" not in form["bytes"]]
        text = b"".join(form["bytes"].encode("latin-1") + b"\n\n" + games()[number % 24].encode() for number, form in enumerate(forms))
        saved = self.check(text)
        self.assertGreaterEqual(len(movetexts(saved.stdout)), 2 * len(forms) - 4)

    def test_good_collections_are_untouched(self):
        for path in ("crates/corpus/stdout", "crates/chess_games/stdout"):
            with open(f"{runs.TOP}/{path}", "rb") as file:
                text = file.read()
            self.assertEqual(self.check(text).stdout, ran(text).stdout)

    def test_parts_together_are_all_games(self):
        text = b"".join(form["bytes"].encode("latin-1") + b"\n\n" for form in FORMS[:60]) + BAD.encode()
        whole = self.check(text)
        parts = [ran(text, "--salvage", "--part", f"{number}/3") for number in (1, 2, 3)]
        said = [line for part in parts for line in part.stderr.splitlines()]
        self.assertEqual(sorted(whole.stderr.splitlines()[:-1]), sorted(said))
        split = [re.split(rb"(?<=\n\n)(?=\[Event )", each.stdout) for each in (whole, *parts)]
        self.assertEqual(sorted(split[0]), sorted(game for part in split[1:] for game in part))

    def test_mutations(self):
        chance = random.Random(62)
        whole = [game.encode() for game in games()] + [form["bytes"].encode("latin-1") for form in FORMS]
        for _ in range(MUTATIONS // 4):
            self.check(b"\n\n".join(mutated(chance, chance.choice(whole)) for _ in range(4)))

    def test_the_package_saves_the_same(self):
        """Python's games, of each form and of some mutations: as the program writes and reports them."""
        chance = random.Random(63)
        whole = [form["bytes"].encode("latin-1") for form in FORMS]
        for text in whole + [b"\n\n".join(mutated(chance, chance.choice(whole)) for _ in range(4)) for _ in range(100)]:
            found, faults, repairs = [], [], []
            for game in jatshegi.pgn.games(text, faults.append, repairs.append):
                found.append(bytes(game))
            program = ran(text, "--salvage")
            self.assertEqual(b"".join(found), program.stdout, text)
            said = [f"repaired {repair.place} {repair.name}" for each in repairs for repair in each]
            said += [f"fault {fault.place} {fault.fault}" for fault in faults]
            lines = [re.fullmatch(r"game \d+: (repaired \d+ \w+|fault \d+ \d+)(?: \w+)?", line)[1] for line in program.stderr.decode().splitlines()]
            self.assertEqual(sorted(said), sorted(lines), text)

    def test_more_bytes_than_are_at_hand(self):
        """Whitespace, and a comment, longer than what is read at once, and many games."""
        game = games()[0].encode()
        for between in (b"\n" * 4_000_000, b"% " + b"x" * 4_000_000 + b"\n", b'[Event "a"]\n\n1. e4 {' + b"c" * 1_300_000 + b"} *\n\n"):
            saved = self.check(game + between + game)
            written = movetexts(saved.stdout)
            self.assertEqual(written[0], written[-1])
        self.check((game + BAD.encode()) * 30_000)

    def test_letters_of_other_languages(self):
        """A word that is a move in both languages is the other one's; tags, comments and words of evaluation stay, and English is read as ever."""
        german = '[Event "Td1"]\n\n1. e4 e5 2. Sf3 {Sf3 Dd1} Sc6 (2... d6 3. Lc4 Lg4) 3. Lb5 a6 ; Lb5\n4. Sg1 Dh4 D 5. L:c6 *'
        promotions = '[FEN "7k/P7/8/8/8/8/8/K7 w - - 0 1"]\n\n1. a8D+ (1. a8=T+) (1. a8(S)) *'
        french = "1. e4 e5 2. Re2 Re7 3. Cf3 Cf6 4. Tg1 *"
        for letters, text, moves, count in (
            ("KDTLS", german, "1. e4 e5 2. Nf3 {Sf3 Dd1} 2... Nc6 (2... d6 3. Bc4 Bg4) 3. Bb5 a6 {Lb5} 4. Ng1 Qh4 $220 5. Bxc6 *", 8),
            ("KDTLS", promotions, "1. a8=Q+ (1. a8=R+) (1. a8=N) *", 3),
            ("RDTFC", french, "1. e4 e5 2. Ke2 Ke7 3. Nf3 Nf6 4. Rg1 *", 5),
        ):
            saved = ran(text.encode(), "--salvage", "--letters", letters)
            self.assertEqual((movetexts(saved.stdout), saved.stderr.count(b"Letter\n")), ([moves], count), (text, saved.stderr))
        english = "\n\n".join(games()).encode()
        self.assertEqual(ran(english, "--salvage", "--letters", "KDTLS").stdout, ran(english).stdout)
        for words in (["--letters", "KDTLS"], *(["--salvage", "--letters", wrong] for wrong in ("", "KDTL", "KDTLL", "kdtls", "KDTLSX"))):
            ended = subprocess.run([GAMES, *words], input=b"", capture_output=True, timeout=runs.MOST_SECONDS)
            self.assertEqual((ended.returncode, b"--letters" in ended.stderr), (1, True), words)

    def test_letters_of_tags_and_comments_stay(self):
        """Only letters among the moves change, even if a tag needs repair."""
        text = '[White "Dvoretsky, S"]\n[Black "Tal]\n[Site Sd1]\n\n1. Sf3 {Sf3 Dd1} Sf6 (1... Sc6 {Tb1}) ; Tg1\n%Tg1\n2. Tg1 *'
        saved = ran(text.encode(), "--salvage", "--letters", "KDTLS")
        for tag in (b'[White "Dvoretsky, S"]', b'[Black "Tal"]', b'[Site "Sd1"]'):
            self.assertIn(tag, saved.stdout)
        self.assertEqual(movetexts(saved.stdout), ["1. Nf3 {Sf3 Dd1} 1... Nf6 {Tg1} (1... Nc6 {Tb1}) 2. Rg1 *"])
        self.assertEqual(saved.stderr.count(b"Letter\n"), 4)

    def test_a_move_keeps_its_man(self):
        """A repair never turns the file b into the bishop."""
        for move, written in (("b:c3", "bxc3"), ("B:c3", "Bxc3"), ("b2-b3", "b3"), ("Bd2-c1", "Bc1")):
            saved = self.check(f'[FEN "4k3/8/8/8/8/2n5/1P1B4/4K3 w - - 0 1"]\n\n1. {move} *\n'.encode())
            self.assertEqual(movetexts(saved.stdout), [f"1. {written} *"])

    def test_a_tag_keeps_its_value(self):
        """A value keeps its punctuation, and its quotation marks are escaped; a name loses its hyphen."""
        for tag, written in (
            ('[Date "2024.01.15]', '[Date "2024.01.15"]'),
            ("[White O'Brien, J. (2400)]", '[White "O\'Brien, J. (2400)"]'),
            ('[Site  " C:\\x "\\"" y"  ', '[Site "C:\\\\x \\"\\"\\" y"]'),
            ('[Time-Control "40/7200:3600"]', '[TimeControl "40/7200:3600"]'),
            ('[Annotator "' + "a. " * 2_000 + "]", '[Annotator "' + "a. " * 1_999 + 'a."]'),
        ):
            saved = self.check(f"{tag}\n\n1. e4 *\n".encode())
            self.assertIn(written.encode(), saved.stdout)

    def test_a_fen_keeps_its_men(self):
        """A repair writes castling rights and missing counters, and leaves the tag out if it has no position."""
        men = "r3k2r/8/8/8/8/8/8/R3K2R w"
        for fields, written in ((f"{men} HAha - 0 1", f"{men} KQkq - 0 1"), (f"{men} KAk - 3 9", f"{men} KQk - 3 9"), (f"{men} KQkq", f"{men} KQkq - 0 1"), (f"{men} K - 4", f"{men} K - 4 1")):
            saved = self.check(f'[FEN "{fields}"]\n[SetUp "1"]\n\n1. Ke2 *\n'.encode())
            self.assertIn(f'[FEN "{written}"]\n'.encode(), saved.stdout)
        for fields in ("", " ", "?", "???? "):
            self.assertNotIn(b"FEN", self.check(f'[FEN "{fields}"]\n\n1. e4 *\n'.encode()).stdout)
        self.assertEqual(self.check(f'[FEN "{men} XYZ - 0 1"]\n\n1. Ke2 *\n'.encode()).stdout, b"")

    def test_time_grows_with_the_text(self):
        """Each of these texts once took the square of its length."""
        for text in (
            b'\n\n[a""]{' * 65_536,
            b'[a""]{' * 87_381,
            b"1. e4 (" * 65_536 + b"\n[" + b" " * 65_536 + b"a",
            b"1. e4 " + b"," * 524_288,
            b"1. e4 " + b"\xe2\x99\x98" * 174_762,
            b"1. e4 (" + b" [x" * 174_762,
            b"[a b]" * 104_857,
            b'[a "b' * 104_857,
        ):
            with self.subTest(text=text[:12]):
                begun = time.monotonic()
                ran(text, "--salvage")
                self.assertLess(time.monotonic() - begun, 60)

    def test_the_end_of_a_file(self):
        """Whitespace, NUL and ^Z after the last game, at most 1,048,576 bytes, are no game; strict reading has a fault there, as ever."""
        game = games()[0].strip().encode()
        for end in (b"\x1a", b"\r\n\x1a", b"\n \t\v\f\0\x1a\0\n", b"\0" * 1_048_576):
            with self.subTest(end=end[:9], length=len(end)):
                saved = self.check(game + end)
                self.assertEqual((len(movetexts(saved.stdout)), saved.stderr), (1, b"games 1, bytes %d, passed over 0, repaired 0\n" % len(game + end)))
                self.assertEqual(self.check(end).stderr, b"games 0, bytes %d, passed over 0, repaired 0\n" % len(end))
                self.assertEqual(ran(game + end).returncode, 2)
        for end in (b"\x1a\x01", b"\x1a;", b"\n" * 1_048_576 + b"\x1a", b"\x1a\n% 1\n"):
            with self.subTest(end=end[:9], length=len(end)):
                self.assertEqual(self.check(game + end).stderr.splitlines()[-1].split(b",")[0], b"games 2")
        for between in (b"\x1a", b"\r\n\0\0\x1a\r\n"):
            saved = self.check(game + between + game + b"\x1a")
            self.assertEqual((len(movetexts(saved.stdout)), saved.stderr.count(b"Control\n")), (2, between.count(b"\0") + 1))

    def test_the_end_of_a_file_elsewhere(self):
        """The arbiter has no row for it, and Python no game, of a text and of a file."""
        game = games()[0].strip().encode()
        for end in (b"\x1a", b"\r\n\0\x1a\0\n", b"\0" * 1_048_576):
            with self.subTest(end=end[:9], length=len(end)):
                self.assertEqual([(row["number"], row["fault"]) for row in rows_of(game + end)], [("1", "")])
                self.assertEqual(rows_of(end), [])
                for source in (game + end, io.BytesIO(game + end)):
                    faults, repairs = [], []
                    self.assertEqual(len([*jatshegi.pgn.games(source, faults.append, repairs.append)]), 1)
                    self.assertEqual((faults, repairs), ([], []))
                self.assertEqual([*jatshegi.pgn.games(end, faults.append, repairs.append)], [])
                self.assertEqual(len([*jatshegi.pgn.games(game + end, faults.append)]), 1)
                self.assertEqual([fault.place for fault in faults], [len(game) + len(end) - len(end.lstrip(b"\r\n"))])

    def test_a_game_that_cannot_be_saved(self):
        text = b'[FEN "8/8"]\n\n1. e4 *\n\n' + games()[0].encode()
        saved = self.check(text)
        self.assertEqual((saved.returncode, len(movetexts(saved.stdout))), (2, 1))
        self.assertEqual(saved.stderr.splitlines()[-1], f"games 2, bytes {len(text)}, passed over 22, repaired 0".encode())

    def test_a_failed_read_loses_no_game_that_was_read(self):
        """Each game is written. One that reaches the last byte isn't, since more bytes might make it longer. (The longest text is longer than the window.)"""
        game = b'[White "a"]\n\n1. e4 e5 2. Nf3 Nc6 1-0\n\n'
        for count in (0, 1, 3, 100_000):
            for rest in (b"", b"1. d4 ", b'[White "b"]\n\n1. e4 {'):
                with self.subTest(count=count, rest=rest), runs.failing_input(game * count + rest) as file:
                    ended = subprocess.run([GAMES, "--salvage"], stdin=file, capture_output=True, timeout=runs.MOST_SECONDS)
                    self.assertEqual((ended.returncode, ended.stderr.splitlines()[-1]), (3, b"read fault"))
                    self.assertEqual(ended.stdout, ran(game * count).stdout)


if __name__ == "__main__":
    unittest.main()

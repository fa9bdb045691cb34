"""What the program `arbiter` reports of games: a row each, by the FIDE Laws; docs/FORMATS.md has the columns."""
import csv
import io
import json
import os
import re
import subprocess
import threading
import unittest

import runs

ARBITER = f"{runs.TOP}/crates/arbiter/out/arbiter"

KNIGHTS = "Nf3 Nf6 Ng1 Ng8 "
BLACK_MATES = "1. f3 e5 2. g4 Qh4# "


def start(fen):
    return f'[FEN "{fen}"]\n\n'


def judged(text, *words):
    given = text if isinstance(text, bytes) else text.encode()
    return subprocess.run([ARBITER, *words], input=given, capture_output=True, timeout=runs.MOST_SECONDS)


def rows(text, *words):
    """The rows as dictionaries of texts by the header's names."""
    ended = judged(text, *words)
    assert ended.returncode in (0, 2), ended
    return list(csv.DictReader(io.StringIO(ended.stdout.decode(), newline="")))


@unittest.skipUnless(os.path.exists(ARBITER), "crates/arbiter is not built")
class Arbiter(unittest.TestCase):
    def judge(self, text, **wanted):
        (row,) = rows(text)
        self.assertEqual({name: row[name] for name in wanted}, wanted)

    def test_no_game(self):
        self.assertEqual(rows(" \n"), [])

    def test_a_bad_tag_hides_no_move_of_its_game(self):
        """Strict reading goes on at the next tag, but the row has the game to which the text from the bad tag on is repaired."""
        first, second = rows('[White "A]\n[Black "B"]\n\n1. e4 e5 *\n')
        self.assertEqual([first[name] for name in ("fault", "white", "black", "plies")], ["Tag", "A", "B", "2"])
        self.assertEqual([second[name] for name in ("fault", "white", "black", "plies")], ["", "?", "B", "2"])

    def test_a_mate(self):
        self.judge(BLACK_MATES + "0-1", plies="4", result="0-1", status="mate", winner="black", over_ply="", agrees="true",
                   fen="rnb1kbnr/pppp1ppp/8/4p3/6Pq/5P2/PPPPP2P/RNBQKBNR w KQkq - 1 3")

    def test_claims_on_which_programs_differ(self):
        """The games of suite/claims.pgn: the first ply of a claim by repetition, and by fifty moves."""
        with open(f"{runs.TOP}/suite/claims.pgn", "rb") as file:
            ran = subprocess.run([ARBITER, "--format", "jsonl"], input=file.read(), capture_output=True, check=True)
        rows = [json.loads(line) for line in ran.stdout.splitlines()]
        self.assertEqual([(row["threefold_ply"], row["fifty_ply"]) for row in rows], [(9, None), (None, None), (12, None), (9, None), (None, None), (None, 1)])

    def test_letters_of_another_language(self):
        (row,) = rows("1. f3 e5 2. g4 Dh4# 0-1", "--letters", "KDTLS")
        self.assertEqual((row["winner"], row["fault"], row["plies"]), ("black", "", "4"))

    def test_the_wrong_winner(self):
        self.judge(BLACK_MATES + "1-0", winner="black", agrees="false")
        self.judge(BLACK_MATES + "1/2-1/2", agrees="false")
        self.judge(BLACK_MATES + "*", agrees="true", left_open="true")
        self.judge(BLACK_MATES, result="*", left_open="true")
        self.judge(BLACK_MATES + "0-1", left_open="false")

    def test_a_win_on_a_stalemate(self):
        board = start("7k/8/6K1/8/8/8/8/5Q2 w - - 0 1")
        self.judge(board + "1. Qf7 1-0", status="stalemate", winner="", over_ply="", agrees="false")
        self.judge(board + "1. Qf7 1/2-1/2", agrees="true")

    def test_moves_after_a_dead_position(self):
        self.judge(start("4k3/8/8/8/8/8/4p3/4K3 w - - 0 1") + "1. Kxe2 Kd7 1/2-1/2", plies="2", status="dead", over_ply="1", over_why="dead", agrees="true")

    def test_moves_after_the_fifth_repetition(self):
        self.judge(KNIGHTS * 4 + "e4 1-0", plies="17", status="play", over_ply="16", over_move="8", over_why="fivefold", threefold_ply="8",
                   threefold_move="4", fifty_ply="", repetitions="5", quiet="16", agrees="true")

    def test_the_fourth_repetition_ends_no_game(self):
        self.judge(KNIGHTS * 3 + "e4 1-0", plies="13", over_ply="", threefold_ply="8", repetitions="4", quiet="12")

    def test_a_claim_by_fifty_moves(self):
        self.judge(start("4k3/8/8/8/8/8/8/R3K3 w - - 98 80") + "1. Ra2 Kd7 2. Ra3 *", fifty_ply="2", fifty_move="80", threefold_ply="", threefold_move="",
                   quiet="101", repetitions="1")

    def test_75_moves(self):
        self.judge(start("4k3/8/8/8/8/8/8/R3K3 w - - 148 80") + "1. Ra2 Kd7 2. Ra3 1-0", over_ply="2", over_why="seventyfive", status="seventyfive",
                   agrees="false", fifty_ply="0", fifty_move="")

    def test_moves_are_numbered_as_on_the_score_sheet(self):
        """The number of White's move and of Black's next one, from a start with Black to move, too."""
        rooks = "Ra2 Kd7 Ra1 Ke8 "
        self.judge(start("4k3/8/8/8/8/8/8/R3K3 w - - 0 30") + rooks * 2 + "1/2-1/2", threefold_ply="8", threefold_move="33")
        self.judge(start("4k3/8/8/8/8/8/8/R3K3 b - - 0 30") + "Kd7 Ra2 Ke8 Ra1 " * 2 + "1/2-1/2", threefold_ply="8", threefold_move="34")
        self.judge(start("4k3/8/8/8/8/8/8/R3K3 b - - 99 30") + "Kd7 *", fifty_ply="1", fifty_move="30")
        self.judge(start("4k3/8/8/8/8/8/8/R3K3 b - - 98 30") + "Kd7 Ra2 *", fifty_ply="2", fifty_move="31")

    def test_tags_and_start(self):
        self.judge('[White "a"][Black "b"][WhiteElo "2500"][BlackElo "-"][Event "c"][Site "d"][Date "2026.11.28"][Round "3.1"]\n\n*', white="a", black="b",
                   white_elo="2500", black_elo="-", event="c", site="d", date="2026.11.28", round="3.1", variant="", start_fen="", other_variant="false")
        self.judge("*", round="?", site="?", white_elo="", black_elo="", variant="")
        self.judge(start("4k3/8/8/8/8/8/8/R3K3 w - - 5 30") + "Ra2 *", start_fen="4k3/8/8/8/8/8/8/R3K3 w - - 5 30")
        usual = "rnbqkbnr/pppppppp/8/8/8/8/PPPPPPPP/RNBQKBNR w KQkq - 0 "
        self.judge(start(usual + "1") + "*", start_fen="")
        self.judge(start(usual + "2") + "*", start_fen=usual + "2")

    def test_a_win_of_a_king_alone(self):
        board = start("4k3/8/8/8/8/8/8/R3K3 w - - 0 1") + "Ra2 Kd7 "
        for marker, bare in (("1-0", "false"), ("0-1", "true"), ("1/2-1/2", "false"), ("*", "false")):
            self.judge(board + marker, bare_king_wins=bare, agrees="true", left_open="false")
        self.judge(start("4k2r/8/8/8/8/8/8/4K3 w - - 0 1") + "1-0", bare_king_wins="true")
        self.judge(start("4k2r/8/8/8/8/8/8/4K2N w - - 0 1") + "1-0", bare_king_wins="false")

    def test_another_variant(self):
        for name, other in (("Standard", "false"), ("chess", "false"), ("From Position", "false"), ("Normal", "false"), ("CLASSICAL", "false"),
                            ("Chess960", "true"), ("Antichess", "true"), ("King of the Hill", "true"), ("chess ", "true"), ("", "false"), ("?", "false")):
            self.judge(f'[Variant "{name}"]\n\n*', variant=name, other_variant=other)

    def test_variations_are_left_out(self):
        self.judge("1. e4 (1. f3 e5 2. g4 Qh4#) 1... e5 *", plies="2", status="play")

    def test_a_bad_game_among_good_ones(self):
        text = '*\n\n[White "a"]\n\n1. e4 e4 *\n\n[White "b, \\"c\\""]\n\n*\n'
        self.assertEqual(judged(text).returncode, 2)
        found = rows(text)
        self.assertEqual([(row["number"], row["offset"], row["white"], row["plies"], row["fault"]) for row in found],
                         [("1", "0", "?", "0", ""), ("2", "1", "a", "1", "Move"), ("3", str(text.index('[White "b')), 'b, "c"', "0", "")])
        self.assertEqual(found[1]["fault_place"], str(text.index("e4 *")))
        self.assertEqual([row["number"] for row in rows(text, "--findings")], ["2"])

    def test_moves_after_mate_cannot_be_read(self):
        """The moves before the fault say what an arbiter looks for."""
        self.judge('[White "a"]\n\n' + BLACK_MATES + "3. e3 1-0", fault="Move", white="a", plies="4", status="mate", winner="black", result="1-0", agrees="false")

    def test_a_game_that_cannot_be_read_says_what_its_repaired_text_says(self):
        self.judge('[White "a"][Result "0-1"]\n\n1. e4 e5 2. Ke3 Nf6 1-0', fault="Move", fault_place="39", white="a", plies="2", result="1-0", result_tag="0-1",
                   other_result="true", no_marker="", start_fen="")
        self.judge('[White "a "b" c"]\n\n1. e2-e4 e5 1/2', fault="Tag", white='a "b" c', plies="2", result="1/2-1/2")
        self.judge(start("4k3/8/8/8/8/8/8/R3K3 w - - 0") + "1. Ra2 *", fault="Fen", plies="1", start_fen="4k3/8/8/8/8/8/8/R3K3 w - - 0 1", fen_changed="false")
        self.judge('[White "a"]\n\n1. e4 {', fault="Truncated", white="a", plies="1")

    def test_one_that_cannot_be_repaired_has_its_tags(self):
        roster = {"White": "a", "Black": "b", "WhiteElo": "2100", "BlackElo": "1", "Event": "e", "Site": "s", "Date": "2026.??.??", "Round": "3", "Variant": "Atomic", "Result": "1-0"}
        (row,) = rows("".join(f'[{name} "{value}"]\n' for name, value in roster.items()) + '[White "z"]\n[FEN "8/8/8/8/8/8/8/8 w - - 0 1"]\n\n*')
        columns = ("white", "black", "white_elo", "black_elo", "event", "site", "date", "round", "variant", "result_tag")
        self.assertEqual(tuple(row[name] for name in columns), tuple(roster.values()))
        self.assertEqual({name for name, value in row.items() if value}, {"number", "offset", "fault_place", "fault", "other_variant", *columns})
        self.assertEqual((row["fault"], row["other_variant"]), ("Fen", "true"))
        (row,) = rows('[FEN "8/8/8/8/8/8/8/8 w - - 0 1"]\n\n[White "a"]*')
        self.assertEqual({name for name, value in row.items() if value}, {"number", "offset", "fault_place", "fault", "other_variant", "white"})

    def test_the_tag_result(self):
        for tag, marker, other in (("1-0", "1-0", "false"), ("1-0", "0-1", "true"), ("1-0", "*", "true"), ("*", "*", "false"), ("?", "1-0", "true"), ("", "*", "true")):
            self.judge(f'[Result "{tag}"]\n\n{marker}', result=marker, result_tag=tag, other_result=other, no_marker="false")
        self.judge("1-0", result_tag="", other_result="false")
        # The first tag of a name counts, with what a backslash hides; no comment and no other tag is taken for it.
        self.judge('[A "[Result]"] {[Result "0-1"]} [ Result "1\\\\"][Result "1-0"]\n\n1-0', result_tag="1\\", other_result="true")

    def test_no_marker(self):
        self.judge('[Result "1-0"]\n\n1. e4 e5', result="*", no_marker="true", other_result="true")
        self.judge("1. e4 {x*}\n", no_marker="true")
        self.judge("1. e4 *", no_marker="false")
        self.judge("1. e4 1-0", no_marker="false")
        found = rows('[White "a"]\n\n1. e4\n\n[White "b"]\n\n1. e4 *')
        self.assertEqual([row["no_marker"] for row in found], ["true", "false"])

    def test_a_fen_that_is_changed(self):
        usual = "rnbqkbnr/pppppppp/8/8/8/8/PPPPPPPP/RNBQKBNR w KQkq - 0 1"
        self.judge(start(usual) + "*", fen_changed="false")
        self.judge(start(usual.replace("KBNR w", "KBN1 w")) + "*", fen_changed="true", start_fen="rnbqkbnr/pppppppp/8/8/8/8/PPPPPPPP/RNBQKBN1 w Qkq - 0 1")
        self.judge(start(usual.replace("KQkq - ", "KQkq e3 ")) + "*", fen_changed="true", start_fen="")
        self.judge('[SetUp "0"]' + start(usual.replace("KBNR w", "KBN1 w")) + "*", fen_changed="false", start_fen="")
        # The number of the first move is none of it: many files have 0.
        self.judge(start(usual.replace("0 1", "0 0")) + "*", fen_changed="false", start_fen="")
        # Letters in another order, spaces that repeat, and no counters: the same rights and target are given, and the same position is read.
        castles = "r3k2r/8/8/8/8/8/8/R3K2R w KQkq - 0 1"
        for given in ("r3k2r/8/8/8/8/8/8/R3K2R w QKqk - 0 1", "r3k2r/8/8/8/8/8/8/R3K2R  w  KQkq  -  0  1", f" {castles} ", castles[:-4]):
            self.judge(start(given) + "1. Kd1 *", fen_changed="false", start_fen=castles)
            self.assertEqual(rows(start(given) + "1. Kd1 *", "--findings"), [])
        self.judge(start(castles) + "*", fen_changed="false")
        self.judge(start(castles.replace("K2R w", "K3 w")) + "*", fen_changed="true", start_fen="r3k2r/8/8/8/8/8/8/R3K3 w Qkq - 0 1")
        double_step = "rnbqkbnr/pppppppp/8/8/4P3/8/PPPP1PPP/RNBQKBNR b KQkq e3 0 1"
        self.judge(start(double_step) + "*", fen_changed="false", start_fen=double_step)
        self.judge("*", fen_changed="false")

    def test_findings(self):
        bare = start("4k3/8/8/8/8/8/8/R3K3 w - - 0 1")
        changed = start("4k3/8/8/8/8/8/8/R3K3 w K - 0 1")
        text = (f'{BLACK_MATES}0-1 {BLACK_MATES}1-0 {KNIGHTS * 4}e4 * {BLACK_MATES}*\n\n{bare}0-1\n\n{bare}1-0\n\n[Variant "Atomic"]\n\n*\n\n'
                f'[Result "1-0"]\n\n0-1\n\n{changed}*\n\n[Result "1-0"]\n\n1-0\n\n[White "a"]\n\n1. e4')
        self.assertEqual([row["number"] for row in rows(text, "--findings")], ["2", "3", "4", "5", "7", "8", "9", "11"])
        self.assertEqual(judged(text, "--findings").returncode, 0)

    def test_lines_of_json(self):
        text = b'[White "M\xfcller"]\n[Black "\xc3\xa9 \\"x\\""]\n\n' + BLACK_MATES.encode() + b"1-0\n\n[Site \"?\"]\n\n1. e5 *\n"
        good, bad = [json.loads(line) for line in judged(text, "--format", "jsonl").stdout.splitlines()]
        self.assertEqual((good["white"], good["black"], good["plies"], good["agrees"], good["over_ply"]), ("Müller", 'é "x"', 4, False, None))
        self.assertEqual((bad["number"], bad["plies"], bad["fault"]), (2, 0, "Move"))
        self.assertEqual(list(good), list(rows("*")[0]))

    def test_a_line_of_json_to_the_byte(self):
        text = f'*\n\n[White "a"]\n\n{BLACK_MATES}1-0\n\n[Site "?"]\n\n1. e5 *\n'
        self.assertEqual(judged(text, "--findings", "--format", "jsonl").stdout.decode(),
            '{"number":2,"offset":1,"white":"a","black":"?","white_elo":null,"black_elo":null,"event":"?","site":"?","date":"????.??.??","round":"?",'
            '"variant":null,"other_variant":false,"start_fen":null,"fen_changed":false,"plies":4,"result":"1-0","result_tag":null,"other_result":false,'
            '"no_marker":false,"status":"mate","winner":"black",'
            '"over_ply":null,"over_move":null,"over_why":null,"threefold_ply":null,"threefold_move":null,"fifty_ply":null,"fifty_move":null,'
            '"repetitions":1,"quiet":1,"agrees":false,"left_open":false,"bare_king_wins":false,'
            '"fen":"rnb1kbnr/pppp1ppp/8/4p3/6Pq/5P2/PPPPP2P/RNBQKBNR w KQkq - 1 3","fault_place":null,"fault":null}\n'
            '{"number":3,"offset":39,"white":"?","black":"?","white_elo":null,"black_elo":null,"event":"?","site":"?","date":"????.??.??","round":"?",'
            '"variant":null,"other_variant":false,"start_fen":null,"fen_changed":false,"plies":0,"result":"*","result_tag":null,"other_result":false,'
            '"no_marker":null,"status":"play","winner":null,'
            '"over_ply":null,"over_move":null,"over_why":null,"threefold_ply":null,"threefold_move":null,"fifty_ply":null,"fifty_move":null,'
            '"repetitions":1,"quiet":0,"agrees":true,"left_open":false,"bare_king_wins":false,'
            '"fen":"rnbqkbnr/pppppppp/8/8/8/8/PPPPPPPP/RNBQKBNR w KQkq - 0 1","fault_place":56,"fault":"Move"}\n')

    def test_a_row_to_the_byte(self):
        self.assertEqual(judged('[White "a, \\"b\\""][Black "c"]\n\n1. e4 *').stdout.decode().split("\r\n")[1:],
            ['1,0,"a, ""b""",c,,,?,?,????.??.??,?,,false,,false,1,*,,false,false,play,,,,,,,,,1,0,true,false,false,'
             "rnbqkbnr/pppppppp/8/8/4P3/8/PPPP1PPP/RNBQKBNR b KQkq e3 0 1,,", ""])

    def test_rows_are_utf_8(self):
        """What isn't is read as ISO 8859-1, a value by itself."""
        found = rows(b'[White "M\xfcller"][Black "M\xc3\xbcller"][Event "\xc3"][Site "\xf6=1"] *')[0]
        self.assertEqual([found[name] for name in ("white", "black", "event", "site")], ["Müller", "Müller", "Ã", "ö=1"])

    def test_no_value_is_a_formula(self):
        """OWASP, CSV injection: an apostrophe before what a spreadsheet would take for a formula."""
        values = {'=HYPERLINK(\\"x\\",1)': '\'=HYPERLINK("x",1)', "+1": "'+1", "-1": "'-1", "@SUM(A1)": "'@SUM(A1)", "\t=1": "'\t=1", "=": "'=", "--": "'--",
                  "-": "-", "1-0": "1-0", "a=1": "a=1", " =1": " =1", "'=1": "'=1", "": ""}
        for value, written in values.items():
            for tag, name in (("White", "white"), ("Round", "round"), ("WhiteElo", "white_elo"), ("Variant", "variant")):
                ended = judged(f'[{tag} "{value}"]\n\n*')
                self.assertEqual(list(csv.DictReader(io.StringIO(ended.stdout.decode(), newline="")))[0][name], written, (value, ended.stderr))
        self.assertEqual(json.loads(judged('[White "=1"]\n\n*', "--format", "jsonl").stdout)["white"], "=1")

    def test_pages_list_the_columns(self):
        names = list(csv.reader(io.StringIO(judged("").stdout.decode())))[0]
        with open(f"{runs.TOP}/man/arbiter.1", encoding="utf-8") as page:
            columns = page.read().split(".Sh COLUMNS")[1].split(".El")[0]
        listed = [name for item in re.findall(r"^\.It Cm (.*)$", columns, re.M) for name in re.findall(r"\w+", item)]
        self.assertEqual(sorted(listed), sorted(names))
        with open(f"{runs.TOP}/docs/FORMATS.md", encoding="utf-8") as page:
            table = page.read().split("| Column | What it says |")[1].split("\n\n")[0]
        listed = [name for item in re.findall(r"^\| (`[^|]*`) \|", table, re.M) for name in re.findall(r"\w+", item)]
        self.assertEqual(sorted(listed), sorted(names))

    def test_words(self):
        self.assertEqual(judged("", "x").returncode, 1)
        self.assertEqual(judged("", "--format", "xml").returncode, 1)
        self.assertEqual(judged("", "--help").stdout.decode(), runs.help_of("arbiter"))

    def test_a_folder_is_no_input(self):
        folder = os.open("/", os.O_RDONLY)
        try:
            ended = subprocess.run([ARBITER], stdin=folder, capture_output=True, timeout=runs.MOST_SECONDS)
        finally:
            os.close(folder)
        self.assertEqual((ended.returncode, ended.stderr), (3, b"read fault\n"))

    def test_a_row_is_written_once_its_game_has_come(self):
        """The other end of the pipe is still open, and doesn't write."""
        with subprocess.Popen([ARBITER, "--format", "jsonl"], stdin=subprocess.PIPE, stdout=subprocess.PIPE) as arbiter:
            timer = threading.Timer(runs.MOST_SECONDS, arbiter.kill)
            timer.start()
            for number in (1, 2, 3):
                arbiter.stdin.write(b'[White "a"]\n\n1. e4 *\n')
                arbiter.stdin.flush()
                self.assertEqual(json.loads(arbiter.stdout.readline())["number"], number)
            timer.cancel()

    def test_a_failed_read_loses_no_game_that_was_read(self):
        """Each game has its row. One that reaches the last byte hasn't, since more bytes might make it longer. (The longest text is longer than the window.)"""
        game = '[White "a"]\n\n1. e4 e5 2. Nf3 Nc6 1-0\n\n'
        for count in (0, 1, 3, 100_000):
            for rest in ("", "1. d4", '[White "b"]\n\n1. e4 {', "1. d4 *"):
                with runs.failing_input((game * count + rest + " ").encode()) as file:
                    ended = subprocess.run([ARBITER, "--format", "jsonl"], stdin=file, capture_output=True, timeout=runs.MOST_SECONDS)
                self.assertEqual((ended.returncode, ended.stderr), (3, b"read fault\n"))
                self.assertEqual(ended.stdout.count(b"\n"), count + rest.endswith("*"), (count, rest))


if __name__ == "__main__":
    unittest.main()

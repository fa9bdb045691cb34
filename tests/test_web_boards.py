"""What people know of other boards: moves as they type them, positions in the address, lists of positions, a board editor, the page without a net and in a frame."""
import os
import re
import shutil
import subprocess
import tempfile
import time
import unittest

import firefox
import runs
import test_web

setUpModule, tearDownModule = test_web.setUpModule, test_web.tearDownModule

START = "rnbqkbnr/pppppppp/8/8/8/8/PPPPPPPP/RNBQKBNR w KQkq - 0 1"
CASTLES = "r3k2r/8/8/8/8/8/8/R3K2R w KQkq - 0 1"
# A pawn and a bishop may take the same knight, and the bishop alone the rook.
TAKES = "4k3/8/8/8/8/2n1r3/1P1B4/7K w - - 0 1"

# By position, the texts that mean a move, and those that mean none or several, with what is said then.
TYPED = {
    START: {
        "Nf3": ["Nf3", "nf3", "NF3", " N f 3 ", "Nf3!", "nf3?!", "Ng1-f3", "g1-f3", "G1F3", "g1 f3", "1. Nf3", "1.nf3!?", "\u2658f3"],
        "e4": ["e4", "E4", "e2-e4", "e2e4", "E2\u2013E4", "e2:e4", "Pe4", "pe4", "1. e4!!", "e 4"],
    },
    CASTLES: {
        "O-O": ["0-0", "o-o", "O-O!", "oo", "00", "e1h1", "Ke1h1", "e1-h1", "e1xh1", "e1g1", "ke1-g1"],
        "O-O-O": ["0-0-0", "o-o-o", "ooo", "e1a1", "O-O-O?"],
    },
    "7k/P7/8/8/8/8/8/K7 w - - 0 1": {"a8=Q+": ["a8q", "a7-a8=q", "A8=Q", "a8(Q)", "a8/Q", "a7a8q!"], "a8=N": ["a8n", "a8=n"]},
    "4k3/8/8/3pP3/8/8/8/4K3 w - d6 0 2": {"exd6": ["exd6 e.p.", "e5xd6", "e5:d6", "exd6ep!", "EXD6"]},
    TAKES: {"bxc3": ["bxc3", "b2:c3"], "Bxc3": ["Bxc3", "d2xc3"], "Bxe3": ["bxe3", "BXE3"]},
}
REFUSED = [
    (START, "nf4", "isn\u2019t legal"), (START, "e2-e5", "isn\u2019t legal"), (START, "hello", "isn\u2019t written as a move"), (START, "e1h1", "isn\u2019t legal"), (START, "0-0", "isn\u2019t legal"),
    (CASTLES, "Re1h1", "isn\u2019t legal"), (TAKES, "BXC3", "That may be bxc3 or Bxc3: say which."), ("4k3/8/8/8/8/2N5/8/4K1N1 w - - 0 1", "ne2!", "More than one man"),
]

ROOK = "4k3/8/8/8/8/8/8/R3K3 w Q - 0 1"
MIDDLE = "r1bqkbnr/pppp1ppp/2n5/4p3/2B1P3/5N2/PPPP1PPP/RNBQK2R b KQkq - 3 3"
POSITIONS = f'''{MIDDLE}
4k3/8/8/8/8/8/8/R3K3 w Q - id "a rook; with ümlaut"; bm Ra8+ O-O-O; hmvc 4; fmvn 20;

8/8/8/8/8/8/8/8 w - - 0 1
rnbqkbnr/pppppppp/8/8/8/8/PPPPPPPP/RNBQKBNR w KQkq -
hello
7k/8/8/8/8/8/8/K7 b - - 7 30 c0 "no men";\r
4k3/8/8/8/8/8/8/R3K3 w Q - 5
'''
LISTED = [
    f"1. {MIDDLE}", "2. a rook; with ümlaut — bm Ra8+ O-O-O", "Line 4 can’t be read: A side has no king, or more than one. “8/8/8/8/8/8/8/8 w - - 0 1”",
    f"5. {START}", "Line 6 can’t be read: The FEN has neither four nor six fields. “hello”", "7. 7k/8/8/8/8/8/8/K7 b - - 7 30 — c0 no men",
    "Line 8 can’t be read: The FEN has neither four nor six fields. “4k3/8/8/8/8/8/8/R3K3 w Q - 5”",
]

# Texts that can't be read, where the page says the fault to be, and what it shows of them.
NO_MOVE = "a word that names no legal move"
FAULTS = [
    ("1. e4 e5 2. Ke3 *", f"{NO_MOVE}, at line 1, column 13, move 2 of White: “Ke3”", "1. e4 e5 cut: Ke3"),
    ('[White "Ä"]\n\n1. e4 {üü\nü} e5 2. Nf3\n2... Nc3 *', f"{NO_MOVE}, at line 5, column 6, move 2 of Black: “Nc3”", "1. e4 üü ü 1... e5 2. Nf3 cut: Nc3"),
    ("1. e4 e5 (1... c5 2. Nf3 d6 (2... Nc6) 3. d5 *", f"{NO_MOVE}, at line 1, column 43, move 3 of White: “d5”", "1. e4 e5 1... c5 2. Nf3 d6 cut: d5 2... Nc6"),
    ("1. e4 e5 2. Nf3 (2. Ke3) *", f"{NO_MOVE}, at line 1, column 21, move 2 of White: “Ke3”", "1. e4 e5 2. Nf3 cut: Ke3"),
    ("Nonsense", f"{NO_MOVE}, at line 1, column 1, move 1 of White: “Nonsense”", ""),
    ('[FEN "rubbish"]\n\n1. e4 *', "a FEN that spells no position, at line 1, column", ""),
    ("[White x]\n1. e4 *", "a malformed tag, at line 1, column", "1. e4"),
    ("1. e4 e5 2. Nf3 & *", "a byte that begins no token, at line 1, column 17, move 2 of Black: “&”", "1. e4 e5 2. Nf3"),
    # brackets that open nothing, variations that have just been opened, and a move that both sides may write
    ("% ( {\n1. e4 {a (} e5 ; ((\n( 1 . ; {\n& *", "a byte that begins no token, at line 4, column 1, move 1 of Black: “&”", "1. e4 a ( 1... e5 (( {"),
    ("1. e4 e5 (1... c5 {THE PLACE OF THE FAULT} 2. Nf3 (2. c3 (& *", "a byte that begins no token, at line 1, column 59, move 2 of White: “&”", "1. e4 e5 1... c5 THE PLACE OF THE FAULT 2. Nf3 2. c3"),
    ("1. e4 e5 2. Nf3 Nf6 3. Bc4 Bc5 (3... d6) 4. O-O (4. O-O x *", f"{NO_MOVE}, at line 1, column 57, move 4 of Black: “x”", "1. e4 e5 2. Nf3 Nf6 3. Bc4 Bc5 3... d6 4. O-O 4. O-O cut: x"),
    ("1. e4 ({x", "the text ends too soon, at line 1, column 10, move 1 of White", "1. e4 x"),
    ("1. e4 e5 {no end", "the text ends too soon, at line 1, column", "1. e4 e5 no end"),
    ('[FEN "4k3/8/8/8/8/8/8/R3K3 b - - 0 40"]\n\n40... Kd8 41. Ra8+ Kd9 *', f"{NO_MOVE}, at line 3, column 20, move 41 of Black: “Kd9”", "40... Kd8 41. Ra8+ cut: Kd9"),
]

# What the browser keeps of the page: names of versions, the files of each, whether one serves this page and whether a newer one waits.
OFFLINE = """
    const done = arguments[0];
    (async () => {
      const names = await caches.keys();
      const files = await Promise.all(names.map(async (name) => (await (await caches.open(name)).keys()).map((it) => new URL(it.url).pathname.slice(1)).sort()));
      const it = await navigator.serviceWorker.getRegistration();
      return [names, files, Boolean(it?.active && navigator.serviceWorker.controller), Boolean(it?.waiting)];
    })().then(done, (error) => done(String(error)));
"""
# Asks for a new version, and says whether one then waits; a browser may also answer that there is none.
UPDATE = """
    const done = arguments[0];
    (async () => {
      const it = await navigator.serviceWorker.getRegistration();
      await it.update().catch(() => {});
      while (it.installing) await new Promise((ready) => setTimeout(ready, 50));
      return Boolean(it.waiting);
    })().then(done, (error) => done(String(error)));
"""
# The version that is on the page once that is ready, by its heading, and the game's moves.
SHOWN = "return document.documentElement.dataset.ready === 'yes' ? [document.querySelector('h1').textContent, document.getElementById('moves').textContent] : null"


class Boards:
    @classmethod
    def setUpClass(cls):
        cls.folder = tempfile.mkdtemp()
        cls.browser = cls.new(cls.folder)
        cls.page = test_web.Page(cls.browser)

    @classmethod
    def tearDownClass(cls):
        cls.browser.quit()
        shutil.rmtree(cls.folder, ignore_errors=True)

    def setUp(self):
        self.page.open()

    def press(self, *keys):
        """Presses keys together."""
        if isinstance(self.browser, firefox.Firefox):
            self.browser.perform(*keys)
            return
        from selenium.webdriver import ActionChains
        chain = ActionChains(self.browser)
        for key in keys:
            chain.key_down(key)
        for key in reversed(keys):
            chain.key_up(key)
        chain.perform()

    def type_move(self, text):
        """Types a text where moves are typed."""
        self.page.script("document.getElementById('san').value = ''; document.getElementById('told').textContent = ''")
        self.page.at("san").send_keys(text + "\n")

    # ---- Moves as people type them.

    def test_moves_as_people_type_them(self):
        page = self.page
        for fen, moves in TYPED.items():
            page.set_fen(fen)
            for move, texts in moves.items():
                for text in texts:
                    self.type_move(text)
                    page.until_moves(f"{fen.split()[-1]}. {move}")
                    self.assertEqual(page.script("return document.getElementById('san').value"), "", text)
                    page.script("document.getElementById('undo').click()")
                    page.until_moves("")

    def test_a_text_that_means_none_or_several_changes_nothing(self):
        page = self.page
        for fen, text, said in REFUSED:
            page.set_fen(fen)
            self.type_move(text)
            page.until_told(said)
            self.assertEqual((page.moves, page.fen, page.script("return document.getElementById('san').value")), ("", fen, text))

    def test_a_king_onto_its_own_rook_castles(self):
        page = self.page
        for rook, move in (("h1", "O-O"), ("a1", "O-O-O")):
            for way in ("drag", "click", "keys"):
                page.set_fen(CASTLES)
                if way == "drag":
                    page.drag("e1", rook)
                elif way == "click":
                    page.squares("e1")
                    self.assertIn("may be castled with", page.square(rook).get_attribute("aria-label"))
                    page.squares(rook)
                else:
                    page.script("document.querySelector('[data-square=e1]').focus()")
                    self.press("\ue007")
                    for _ in range(3 if rook == "h1" else 4):
                        self.press("\ue008", "\ue014" if rook == "h1" else "\ue012")
                    self.press("\ue007")
                page.until_moves(f"1. {move}")
        page.set_fen("r3k2r/8/8/8/8/8/8/R3K2R w kq - 0 1")
        page.squares("e1", "h1")
        self.assertIn("chosen", page.square("h1").get_attribute("aria-label"))
        self.assertEqual(page.moves, "")

    # ---- Positions in the address.

    def own(self):
        return self.page.script("return document.querySelectorAll('#own .open').length")

    def until_kept(self):
        self.page.until(lambda: self.page.script("return document.documentElement.dataset.kept") == "yes", "all is kept")

    def test_a_position_in_the_address_is_opened(self):
        page = self.page
        for address in (f"?fen={ROOK.replace(' ', '_')}", f"?fen={ROOK.replace(' ', '%20')}", f"#fen={ROOK.replace(' ', '%20')}", f"?x=1&fen={ROOK.replace(' ', '+')}#f=1"):
            page.open(address)
            self.assertEqual((page.fen, page.moves, page.text("told")), (ROOK, "", ""))
            self.assertEqual(page.script("return document.querySelector('[data-square]').dataset.square"), "h1" if "f=1" in address else "a8")
        # it is there again after a reload, and what is then done with it is kept
        page.until(lambda: "#fen=" in page.script("return location.hash"), "the address has it")
        self.assertEqual(page.script("return location.search"), "?x=1")
        self.browser.get("about:blank")
        page.open(f"#fen={ROOK.replace(' ', '_')}", keeps=True)
        self.assertEqual(page.fen, ROOK)
        page.play("Ra8")
        page.until(lambda: "#g=" in page.script("return location.hash"), "the address holds the game")
        self.until_kept()
        link = page.script("return location.hash")
        self.browser.get("about:blank")
        page.open(link, keeps=True)
        self.assertEqual((page.moves, self.own()), ("1. Ra8+", 1))

    def test_a_position_in_the_address_takes_nothing(self):
        page = self.page
        page.play("e4", "e5")
        self.until_kept()
        self.browser.get("about:blank")
        page.open(f"?fen={ROOK.replace(' ', '_')}", keeps=True)
        self.assertEqual((page.fen, page.moves, self.own()), (ROOK, "", 2))
        page.script("location.hash = arguments[0]", f"fen={MIDDLE.replace(' ', '_')}")
        page.until(lambda: page.fen == MIDDLE, "another is opened")
        self.assertEqual(self.own(), 2)
        page.script("location.hash = 'fen=rubbish'")
        page.until_told("The address names no position: The FEN has neither four nor six fields.")
        self.assertEqual(page.fen, MIDDLE)
        page.script("document.querySelector('#own .open').click()")
        page.until_moves("1. e4 e5")
        self.until_kept()
        self.browser.get("about:blank")
        page.open("?fen=8/8/8/8/8/8/8/8_w_-_-_0_1", keeps=True)
        page.until_told("The address names no position: A side has no king, or more than one.")
        self.assertEqual((page.moves, self.own()), ("1. e4 e5", 1))

    # ---- Lists of positions, and faults.

    def rows(self):
        return self.page.script("return [...document.querySelectorAll('#games li')].map((it) => it.textContent)")

    def test_a_list_of_positions(self):
        page = self.page
        page.play("e4", "e5")
        for way in ("paste", "file"):
            page.script("document.getElementById('games').replaceChildren(); document.getElementById('told').textContent = ''")
            if way == "paste":
                page.paste(POSITIONS)
            else:
                with tempfile.NamedTemporaryFile(suffix=".epd") as file:
                    file.write(POSITIONS.encode())
                    file.flush()
                    page.at("file").send_keys(file.name)
                    page.until(lambda: self.rows() == LISTED, "they are listed")
            page.until(lambda: self.rows() == LISTED, f"they are listed: {self.rows()}")
            self.assertEqual(page.text("howmany"), "4 positions, and 3 lines that can’t be read")
            page.until_told("choose one")
            self.assertEqual((page.moves, self.own()), ("1. e4 e5", 1))
        self.browser.find_element("css selector", "#games li:nth-child(2) button").click()
        page.until(lambda: page.fen == "4k3/8/8/8/8/8/8/R3K3 w Q - 4 20", "it is on the board")
        page.until(lambda: self.own() == 2, "both games are listed")
        self.assertEqual((page.moves, page.text("gamename")), ("", "a rook; with ümlaut"))
        self.browser.find_element("css selector", "#games li:nth-child(6) button").click()
        page.until(lambda: page.fen == "7k/8/8/8/8/8/8/K7 b - - 7 30", "another is on the board")
        page.play("Kg7")
        self.browser.find_element("css selector", "#games li:nth-child(1) button").click()
        page.until(lambda: page.fen == MIDDLE, "another is on the board")
        page.until(lambda: self.own() == 3, "all three are listed")
        page.script("document.querySelector('#own .open').click()")
        page.until_moves("1. e4 e5")
        page.script("document.querySelectorAll('#own .open')[1].click()")
        page.until_moves("30... Kg7")
        page.type("find", "rook", then="")
        page.until(lambda: len(self.rows()) == 1, "one is found")

    def test_one_position_comes_on_the_board_and_undo_brings_the_game_back(self):
        page = self.page
        page.play("e4")
        for text, listed in ((ROOK, []), ("4k3/8/8/8/8/8/8/R3K3 w Q - bm O-O-O;", [f"1. {ROOK} — bm O-O-O"])):
            page.paste(text)
            page.until(lambda: page.fen == ROOK, "it is on the board")
            page.until(lambda: self.rows() == listed, f"it is listed: {self.rows()}")
            page.script("document.getElementById('undo').click()")
            page.until_moves("1. e4")

    def test_a_fault_has_its_line_its_column_and_its_move(self):
        page = self.page
        for text, said, moves in FAULTS:
            page.script("document.getElementById('new').click()")
            page.until_moves("")
            page.paste(text)
            page.until_told(said)
            self.assertEqual(page.moves, moves)
            self.assertTrue(page.text("told").startswith("This game was repaired (" if moves else "No game can be read: "))
        page.script("document.getElementById('new').click()")
        page.until_moves("")
        games = "1. e4 *\n\n[White \"Bad\"]\n\n1. e4 (1. d4 d5\n2. Kd3) *\n\n[White \"Three\"]\n\n1. c4 *\n\n[White \"Bad\"]\n\n1. c4 c4 *\n"
        page.paste(games)
        page.until(lambda: page.text("howmany") == "2 games, and 2 that can’t be read", "the games are listed")
        bad = [it for it in self.rows() if "read" in it]
        self.assertEqual(bad, [f"2. Can’t be read: {NO_MOVE}, at line 6, column 4, move 2 of White: “Kd3”", f"4. Can’t be read: {NO_MOVE}, at line 14, column 7, move 1 of Black: “c4”"])
        # (a board beside was asked where they are: what it begins has none of their names)
        page.click("new")
        page.until(lambda: not page.moves and page.script("return window.jatshegi.game.state.tags.White") == "?", "a game without names is begun")

    def test_a_game_that_can_not_be_read_is_opened_repaired(self):
        page = self.page
        page.play("d4")
        had = self.own()
        page.paste('1. e4 *\n\n[White "Bad"]\n\n1. e2-e4 c7-c5 2. OO Nc6 *\n\n[White "Three"]\n\n1. c4 *\n\nNonsense *')
        page.until_moves("1. e4")
        page.until(lambda: len(self.rows()) == 4, "the games are listed")
        row = "#games li:nth-child(2) button"
        page.found(row).click()
        page.until_moves("1. e4 c5 cut: O-O Nc6")
        page.until_told("This game was repaired (a word that names no legal move, at line 5, column 4, move 1 of White: “e2-e4”): a hyphen in a move (2 times); a castling; a move that isn’t legal, from which")
        self.assertEqual(page.script("return [jatshegi.game.state.tags.White, document.querySelector(arguments[0]).getAttribute('aria-current'), document.getElementById('saveback').hidden]", row), ["Bad", "true", True])
        page.until(lambda: self.own() == had + 2, "it is a game beside the others")
        # (nothing of another can be)
        page.found("#games li:nth-child(4) button").click()
        page.until_told("Nothing of it can be read")
        self.assertEqual(page.moves, "1. e4 c5 cut: O-O Nc6")
        page.script("document.getElementById('undo').click()")
        page.until_moves("1. e4")
        page.script("document.getElementById('undo').click()")
        page.until_moves("1. d4")
        # (what is done meanwhile stays on the board)
        page.script("document.getElementById('pgn').value = '1. e4 e5 2. Ke3 *'; document.getElementById('read').click(); document.getElementById('san').value = 'd5'; document.getElementById('sanform').requestSubmit()")
        page.until(lambda: len(self.rows()) == 1, "it is listed")
        page.until_moves("1. d4 d5")

    # ---- The board editor.

    def edited(self, name):
        return self.page.found(f"[data-edit={name}]")

    def man(self, letter):
        return self.page.found(f"#palette [data-man={letter}]")

    def until_edited(self, fen, said=""):
        self.page.until(lambda: (self.page.fen, self.page.text("fentold")) == (fen, said), f"{fen} is shown, and '{said}' said; {self.page.fen}, {self.page.text('fentold')}")

    def test_a_position_is_set_up_by_drag_by_taps_and_by_keys(self):
        page, kings = self.page, "A side has no king, or more than one."
        page.play("e4")
        page.click("editempty")
        self.until_edited("8/8/8/8/8/8/8/8 w - - 0 1", kings)
        page.drag_elements(self.man("K"), self.edited("e1"))
        self.until_edited("8/8/8/8/8/8/8/4K3 w - - 0 1", kings)
        self.man("k").click()
        self.edited("e8").click()
        self.edited("d8").click()
        self.until_edited("3kk3/8/8/8/8/8/8/4K3 w - - 0 1", kings)
        self.edited("d8").click()
        self.until_edited("4k3/8/8/8/8/8/8/4K3 w - - 0 1")
        self.assertEqual(self.man("k").get_attribute("aria-pressed"), "true")
        self.man("k").click()
        page.script("document.querySelector('[data-edit=b1]').focus()")
        self.press("\ue012")
        self.press("R")
        self.press("\ue013")
        self.press("p")
        self.until_edited("4k3/8/8/8/8/8/p7/R3K3 w - - 0 1")
        self.press("\ue017")
        self.until_edited("4k3/8/8/8/8/8/8/R3K3 w - - 0 1")
        self.assertEqual(page.script("return document.activeElement.getAttribute('aria-label')"), "a2, empty")
        self.man("P").click()
        self.edited("a2").click()
        self.man("take").click()
        self.edited("a2").click()
        self.man("take").click()
        # a man is moved by drag, by taps and by keys, and taken by letting go beside the board
        page.drag_elements(self.edited("a1"), self.edited("h1"))
        self.until_edited("4k3/8/8/8/8/8/8/4K2R w - - 0 1")
        self.edited("h1").click()
        self.assertEqual(self.edited("h1").get_attribute("aria-label"), "h1, white rook, chosen")
        self.edited("h8").click()
        self.until_edited("4k2R/8/8/8/8/8/8/4K3 w - - 0 1", "The side not to move is in check.")
        page.drag_elements(self.edited("h8"), page.at("fentold"))
        self.until_edited("4k3/8/8/8/8/8/8/4K3 w - - 0 1")
        page.script("document.querySelector('[data-edit=e1]').focus()")
        for key in ("\ue007", "\ue013", "\ue007"):
            self.press(key)
        self.until_edited("4k3/8/8/8/8/8/4K3/8 w - - 0 1")
        self.press("\ue007")
        self.press("\ue00c")
        self.assertEqual((self.edited("e2").get_attribute("aria-label"), page.script("return document.getElementById('fenbox').open")), ("e2, white king", True))
        self.assertEqual(page.moves, "1. e4")
        page.click("editstart")
        self.until_edited(START)

    def test_the_fields_of_a_position_are_set(self):
        page = self.page
        page.play("e4", "e5")
        page.type("fen", "4k3/8/8/3pP3/8/8/8/R3K2R b - - 0 1", then="")
        self.assertEqual(self.edited("d5").get_attribute("aria-label"), "d5, black pawn")
        self.assertEqual(page.script("return document.getElementById('editside').value"), "b")
        for name in ("editK", "editQ"):
            page.click(name)
        self.until_edited("4k3/8/8/3pP3/8/8/8/R3K2R b KQ - 0 1")
        page.script("const it = document.getElementById('editside'); it.value = 'w'; it.dispatchEvent(new Event('input'))")
        page.type("edittarget", "d6", then="")
        page.type("editclock", "7", then="")
        page.type("editnumber", "33", then="")
        self.until_edited("4k3/8/8/3pP3/8/8/8/R3K2R w KQ d6 7 33")
        page.click("editk")
        self.until_edited("4k3/8/8/3pP3/8/8/8/R3K2R w KQk d6 7 33", "It is read as 4k3/8/8/3pP3/8/8/8/R3K2R w KQ d6 7 33")
        page.type("edittarget", "x", then="")
        self.until_edited("4k3/8/8/3pP3/8/8/8/R3K2R w KQk x 7 33", "The en passant target is neither - nor a square, or no pawn has just passed over it.")
        page.at("fen").send_keys("\n")
        page.until_told("The en passant target is neither")
        self.assertEqual((page.moves, page.script("return document.getElementById('fenbox').open")), ("1. e4 e5", True))
        page.type("edittarget", "d6", then="")
        self.until_edited("4k3/8/8/3pP3/8/8/8/R3K2R w KQk d6 7 33", "It is read as 4k3/8/8/3pP3/8/8/8/R3K2R w KQ d6 7 33")
        page.found("#fenform .main").click()
        page.until(lambda: page.fen == "4k3/8/8/3pP3/8/8/8/R3K2R w KQ d6 7 33" and not page.script("return document.getElementById('fenbox').open"), "it is on the board")
        page.until(lambda: self.own() == 2, "the game that was there is listed, too")
        self.assertEqual(page.moves, "")
        page.script("document.getElementById('undo').click()")
        page.until_moves("1. e4 e5")
        # what was not set is given up with the box
        had = page.fen
        page.click("editempty")
        page.closes()
        page.until(lambda: page.fen == had, "the field has the game\u2019s FEN again")
        self.assertEqual(page.moves, "1. e4 e5")

    # ---- Without a net.

    def offline(self):
        return self.browser.execute_async_script(OFFLINE)

    def newer_waits(self):
        """Whether a new version is fetched and waits; asked while the page is loaded anew, no."""
        return self.page.tried(lambda: self.browser.execute_async_script(UPDATE)) is True

    def shown(self):
        """The heading and the moves; none while the page is loaded anew."""
        heading, moves = self.page.tried(lambda: self.page.script(SHOWN)) or ("", "")
        return heading, " ".join(moves.split())

    def changes(self, folder, name, old, new):
        with open(f"{folder}/{name}", encoding="utf-8") as file:
            text = file.read()
        self.assertIn(old, text)
        with open(f"{folder}/{name}", "w", encoding="utf-8") as file:
            file.write(text.replace(old, new))

    def again(self, page):
        page.until(lambda: page.tried(lambda: page.script("return document.documentElement.dataset.kept")) == "yes", "all is kept")
        self.browser.get("about:blank")
        page.open(keeps=True)

    def version(self, name, of, changes, later=()):
        """A folder with the page of another one and its list, with changes: a file, a text there and the one in its place. Those that come `later` the list doesn't know."""
        folder = f"{self.folder}/{name}"
        shutil.copytree(of, folder)
        for it in changes:
            self.changes(folder, *it)
        subprocess.run([f"{runs.TOP}/tools/offline", folder], check=True)
        for it in later:
            self.changes(folder, *it)
        return folder

    def put(self, link, folder):
        """Has the server give another folder from now on, all of it at once."""
        os.symlink(folder, f"{link} new")
        os.replace(f"{link} new", link)

    def test_the_page_opens_without_a_net_and_a_new_version_replaces_it(self):
        first, link = self.version("first", test_web.WEB, []), f"{self.folder}/web"
        self.put(link, first)
        it, had = test_web.serve(link), self.page
        page = type(self).page = test_web.Page(self.browser, it)
        try:
            page.open()
            page.until(lambda: self.offline()[2], "the page is kept")
            names, files, _, is_waiting = self.offline()
            with open(f"{first}/offline.js", encoding="utf-8") as file:
                listed = re.findall(r"^  '(.*)': 'sha256-", file.read(), re.M)
            self.assertEqual((len(names), files, is_waiting), (1, [listed], False))
            page.play("e4")
            test_web.stop(it)
            with test_web.port_held(it.server_port):
                self.again(page)
                self.assertEqual(page.moves, "1. e4")
                page.click("analyse")
                page.until(lambda: page.script("return document.querySelectorAll('#lines li').length"), "the engine thinks, too")
                page.click("analyse")
                page.play("e5")
                # a new version is fetched, and is there at the next visit
                newer = self.version("newer", first, [("index.html", "<h1>Jatshegi</h1>", "<h1>Newer</h1>")])
                self.put(link, newer)
                it = test_web.serve(link, port=it.server_port)
            self.again(page)
            # (it may be there at this visit, where the browser was quick to fetch it)
            page.until(lambda: self.newer_waits() or self.shown()[0] == "Newer", "a new version waits")
            self.again(page)
            page.until(lambda: self.shown() == ("Newer", "1. e4 e5"), lambda: f"the new version is there, with the game: {self.shown()}, {page.tried(self.offline)}")
            kept = self.offline()[0]
            self.assertTrue(len(kept) == 1 and kept != names, kept)
            # one of which a file is not as its list says is not taken
            self.put(link, self.version("newest", newer, [("index.html", "<h1>Newer</h1>", "<h1>Newest</h1>")], [("words.js", "Checkmate", "Matt")]))
            self.assertIs(self.browser.execute_async_script(UPDATE), False)
            # (the browser may try it once more by itself)
            page.until(lambda: self.offline()[0] == kept, "nothing of it is kept")
            test_web.stop(it)
            with test_web.port_held(it.server_port):
                self.again(page)
                self.assertEqual(self.shown(), ("Newer", "1. e4 e5"))
        finally:
            type(self).page = had
            self.browser.get("about:blank")
            test_web.stop(it)

    def test_the_page_is_kept_though_a_file_is_not_had_at_once(self):
        class Handler(test_web.Handler):
            left = 2

            def do_GET(self):
                if self.path == "/icon-512.png" and Handler.left:
                    Handler.left -= 1
                    self.close_connection = True
                    return
                super().do_GET()

        it, had = test_web.serve(test_web.WEB, Handler), self.page
        page = type(self).page = test_web.Page(self.browser, it)
        try:
            page.open()
            page.until(lambda: self.offline()[2], "the page is kept")
            self.assertEqual(Handler.left, 0)
        finally:
            type(self).page = had
            self.browser.get("about:blank")
            test_web.stop(it)

    def test_a_page_whose_version_was_replaced_as_it_began_is_loaded_anew(self):
        """Once: here no other version comes, and the page stays as it is then."""
        it, had = test_web.serve(test_web.WEB), self.page
        page = type(self).page = test_web.Page(self.browser, it)
        begun = "return performance.getEntriesByType('navigation')[0].type"
        try:
            page.open()
            page.until(lambda: self.offline()[2], "the page is kept")
            self.assertEqual(page.script(begun), "navigate")
            self.browser.execute_async_script("""
                const done = arguments[0];
                (async () => {
                  for (const it of await caches.keys()) await caches.delete(it);
                  await caches.open('jatshegi another');
                })().then(done, done);
            """)
            self.again(page)
            page.until(lambda: page.tried(lambda: page.script(begun)) == "reload" and self.shown()[0] == "Jatshegi", "it is loaded anew")
            page.play("e4")
            time.sleep(0.5)
            self.assertEqual((self.shown(), page.script(begun)), (("Jatshegi", "1. e4"), "reload"))
        finally:
            type(self).page = had
            self.browser.get("about:blank")
            test_web.stop(it)

    def into(self, selector=None):
        """Goes into a frame of the page, or back to the whole page."""
        if isinstance(self.browser, firefox.Firefox):
            self.browser.into(selector and self.page.found(selector))
        elif selector:
            self.browser.switch_to.frame(self.page.found(selector))
        else:
            self.browser.switch_to.default_content()

    def beside(self, server, name, where="append"):
        """Adds a frame with a page of that server, and waits for it."""
        self.browser.execute_async_script("""
            const [address, where, done] = arguments;
            const it = document.createElement('iframe');
            Object.assign(it, { src: address, width: 800, height: 700, onload: () => done(true) });
            document.body[where](it);
        """, f"http://127.0.0.1:{server.server_port}/{name}", where)

    def test_a_new_version_takes_over_once_no_other_window_has_the_old_one(self):
        """Two windows, here in frames of a page of another server: the one asks for the new version, and the other goes."""
        first, link, around = self.version("old", test_web.WEB, []), f"{self.folder}/two", tempfile.mkdtemp(dir=self.folder)
        self.put(link, first)
        with open(f"{around}/index.html", "w", encoding="utf-8") as file:
            file.write("<!DOCTYPE html><title>Around</title>")
        it, outer, had = test_web.serve(link), test_web.serve(around), self.page
        page = type(self).page = test_web.Page(self.browser, it)
        try:
            page.open()
            page.until(lambda: self.offline()[2], "the page is kept")
            self.browser.get(f"http://127.0.0.1:{outer.server_port}/")
            self.beside(it, "about.html")
            self.beside(it, "")
            self.into("iframe:last-child")
            page.until(lambda: self.shown()[0] == "Jatshegi", "the page is there")
            self.put(link, self.version("new", first, [("index.html", "<h1>Jatshegi</h1>", "<h1>Newer</h1>")]))
            page.until(self.newer_waits, "a new version waits")
            page.script("window.had = true")
            for is_touched in (True, False):
                page.script("setTimeout(() => location.reload(), 0)")
                page.until(lambda: page.tried(lambda: page.script("return !window.had")) and self.shown()[0] == "Jatshegi", "the old version is there again")
                page.script("window.had = true")
                if is_touched:
                    page.script("const it = document.getElementById('pgn'); it.value = '1. e4'; it.dispatchEvent(new Event('input', { bubbles: true }))")
                # (the new version is asked for several times meanwhile)
                time.sleep(1)
                self.assertEqual((self.shown()[0], self.newer_waits()), ("Jatshegi", True))
                self.into()
                page.script("document.querySelector('iframe').remove()")
                self.into("iframe:last-child")
                if is_touched:
                    time.sleep(1)
                    self.assertEqual((self.shown()[0], page.script("return document.getElementById('pgn').value")), ("Jatshegi", "1. e4"))
                    self.into()
                    self.beside(it, "about.html", "prepend")
                    self.into("iframe:last-child")
            page.until(lambda: self.shown()[0] == "Newer", lambda: f"the new version is there: {self.shown()}, {page.tried(self.offline)}")
        finally:
            self.into()
            type(self).page = had
            self.browser.get("about:blank")
            for each in (it, outer):
                test_web.stop(each)

    # ---- In a frame.

    def frame(self, address, width, height):
        self.page.script("""
            document.getElementById('frame')?.remove();
            const it = document.createElement('iframe');
            it.id = 'frame';
            it.style.cssText = `position: fixed; inset: 0 auto auto 0; border: 0; z-index: 99; width: ${arguments[1]}px; height: ${arguments[2]}px`;
            it.src = `index.html${arguments[0]}`;
            document.body.append(it);
        """, address, width, height)
        self.page.until(lambda: self.inner("return page.documentElement?.dataset.ready") == "yes", "the frame is ready")

    def inner(self, text):
        return self.page.script(f"const {{ contentDocument: page, contentWindow: view }} = document.getElementById('frame'); const at = (name) => page.getElementById(name); {text}")

    def inner_moves(self):
        return " ".join(self.inner("return at('moves').textContent").split())

    def test_in_a_frame_the_board_and_its_moves_are_alone(self):
        page = self.page
        page.play("d4")
        self.until_kept()
        games = "const done = arguments[0]; const it = indexedDB.open('jatshegi', 1); it.onsuccess = () => { it.result.transaction('states').objectStore('states').count().onsuccess = ({ target }) => done(target.result); }"
        had = self.browser.execute_async_script(games)
        shown = "return ['board', 'moves', 'start', 'forward', 'flip', 'top', 'undo', 'analyse', 'menubutton', 'heat', 'san', 'comment', 'value'].filter((it) => at(it).checkVisibility())"
        fits = """
            const [board, moves] = ['board', 'moves'].map((it) => at(it).getBoundingClientRect());
            return [page.documentElement.scrollWidth <= view.innerWidth, page.documentElement.scrollHeight <= view.innerHeight + 1, board.top >= 0 && board.right <= view.innerWidth && board.bottom <= view.innerHeight,
              Math.min(moves.height, moves.width) >= 60, board.width >= 200];
        """
        for size in ((640, 420), (340, 560), (900, 600)):
            self.frame("?embed=1#p=0.0&pgn=" + "1.%20e4%20e5%20(1...%20c5%20%7Bthe%20Sicilian%7D)%202.%20Qh5%20*", *size)
            self.assertEqual(self.inner(shown), ["board", "moves", "start", "forward", "flip"])
            self.assertEqual(self.inner(fits), [True] * 5, size)
            self.assertEqual((self.inner_moves(), self.inner("return page.querySelector('[aria-current=step]').textContent")), ("1. e4 e5 1... c5 the Sicilian 2. Qh5", "e5"))
        address = self.inner("return view.location.href")
        self.inner("at('forward').click()")
        page.until(lambda: self.inner("return page.querySelector('[aria-current=step]')?.textContent") == "Qh5", "one step is gone")
        self.inner("page.dispatchEvent(new view.KeyboardEvent('keydown', { key: 'ArrowUp', bubbles: true })); page.body.dispatchEvent(new view.KeyboardEvent('keydown', { key: 'ArrowUp', bubbles: true }))")
        page.until(lambda: self.inner("return page.querySelector('[aria-current=step]')") is None, "the start is shown")
        self.inner("[...page.querySelectorAll('.move')].find((it) => view.jatshegi.pathAt(it) === '0.1').click()")
        page.until(lambda: self.inner("return page.querySelector('[aria-current=step]')?.textContent") == "1... c5", "a variation is gone to")
        self.frame(f"?embed=1&fen={ROOK.replace(' ', '_')}&f=1", 600, 400)
        self.assertEqual((self.inner("return at('fen').value"), self.inner_moves(), self.inner("return page.querySelector('[data-square]').dataset.square")), (ROOK, "", "h1"))
        for bad, said in (("&fen=rubbish", "The address names no position: The FEN has neither four nor six fields."), ("#pgn=1.%20e5", f"No game: {NO_MOVE}, at line 1, column 4, move 1 of White: “e5”.")):
            self.frame(f"?embed=1{bad}", 600, 400)
            page.until(lambda: self.inner("return at('told').textContent") == said, f"'{said}' is said: {self.inner('return at(`told`).textContent')}")
        self.assertIn("pgn=", address)
        # nothing of it is kept, and the game of the window stays
        self.assertEqual((self.browser.execute_async_script(games), page.moves, self.own()), (had, "1. d4", 1))

    def test_a_game_in_the_address_is_opened_beside(self):
        page = self.page
        page.play("d4")
        self.until_kept()
        self.browser.get("about:blank")
        page.open("#pgn=1.%20e4%20%7Bg%C3%BCt%7D%20e5%20*&p=0", keeps=True)
        self.assertEqual((page.moves, self.own()), ("1. e4 güt 1... e5", 2))


class InChromium(Boards, unittest.TestCase):
    @staticmethod
    def new(folder):
        return test_web.new_browser(folder)


@unittest.skipUnless(shutil.which("firefox-esr"), "the package firefox-esr is missing")
class InFirefox(Boards, unittest.TestCase):
    @staticmethod
    def new(folder):
        return firefox.Firefox(folder)


if __name__ == "__main__":
    unittest.main()

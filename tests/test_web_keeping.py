"""What a person made on the page is there again: by undo and redo, after a reload, after a crash, in several games, and in the file that a game came from."""
import os
import random
import re
import shutil
import signal
import tempfile
import time
import unittest

import firefox
import runs
import test_web

setUpModule, tearDownModule = test_web.setUpModule, test_web.tearDownModule

# All that the module says of the game on the page, once what was asked for is done.
SEEN = """
const done = arguments[arguments.length - 1];
const { game, exported, settled, canUndo, canRedo } = window.jatshegi;
settled().then(exported).then((text) => done([text, game.state.path, game.state.fen, game.draft?.text ?? null, canUndo(), canRedo()]), (error) => done(String(error)));
"""
SQUARES = [f"{file}{rank}" for file in "abcdefgh" for rank in range(1, 9)]
TAGS = {"tagWhite": "White", "tagBlack": "Black", "tagEvent": "Event"}


class Browsing:
    """A page of one browser; `new` makes the browser over a folder."""

    @classmethod
    def setUpClass(cls):
        cls.folder = tempfile.mkdtemp()
        cls.browser = cls.new(cls.folder)
        cls.page = test_web.Page(cls.browser)

    @classmethod
    def tearDownClass(cls):
        cls.browser.quit()
        shutil.rmtree(cls.folder, ignore_errors=True)

    def setUp(self):
        self.page.open()

    def seen(self):
        return self.browser.execute_async_script(SEEN)

    def text(self):
        return self.seen()[0]

    def until_kept(self):
        self.page.until(lambda: self.page.script("return document.documentElement.dataset.kept") == "yes", "all is kept")

    def reload(self, fragment=""):
        self.until_kept()
        self.browser.get("about:blank")
        self.page.open(fragment, keeps=True)

    def press(self, *keys, blurs=True):
        """Presses keys together, where no field has the focus."""
        if blurs:
            self.page.script("document.activeElement?.blur()")
        if isinstance(self.browser, firefox.Firefox):
            self.browser.perform(*keys)
            return
        from selenium.webdriver import ActionChains
        chain = ActionChains(self.browser)
        for key in keys:
            chain.key_down(key)
        for key in reversed(keys):
            chain.key_up(key)
        chain.perform()

    def until_text(self, wanted):
        self.page.until(lambda: self.text() == wanted, f"the game is {wanted!r}")


def escaped(value):
    return value.replace("\\", "\\\\").replace('"', '\\"')


def as_typed(rng, board, move):
    """A legal move's text as people type it."""
    san, squares = board.san(move), str(move)
    ways = [san, san, san + rng.choice("!?"), " ".join(san), f"{squares[:2]}-{squares[2:]}", squares.upper(), f"12. {san}"]
    if san[0] in "NRQK":
        ways.append(san.lower())
    if san[0] == "O":
        ways += [san.replace("O", "0"), san.lower(), squares[:2] + ("h" if squares[2] == "g" else "a") + squares[3]]
    return rng.choice(ways)


COMMAND = r"\[%[A-Za-z]\w*\s+[^\]]*\]"


def words_of(comment):
    """A comment without its commands."""
    return " ".join(re.sub(COMMAND, " ", comment).split())


def with_words(commands, words):
    return " ".join([*commands, *([words] if words else [])])


def toggled(comment, item):
    """The commands of a comment, with an arrow or a circle put in or taken out."""
    name, is_there, commands = "cal" if len(item) > 3 else "csl", False, []
    for text in re.findall(COMMAND, comment):
        if not text.startswith(f"[%{name} "):
            commands.append(text)
            continue
        items = text[6:-1].replace(" ", "").split(",")
        is_there = is_there or item in items
        left = [it for it in items if it[1:] != item[1:]]
        commands += [text] if left == items else [f"[%{name} {','.join(left)}]"] if left else []
    if is_there:
        return commands
    for at in reversed(range(len(commands))):
        if commands[at].startswith(f"[%{name} "):
            commands[at] = f"{commands[at][:-1]},{item}]"
            return commands
    return [*commands, f"[%{name} {item}]"]


class Model:
    """Beside the page: the board of the library, the tags and the result, and the states so far as texts."""

    # The games that were left by undoing their beginning since the last change, each with the one to which that led and its state then.
    left = []

    def __init__(self, jatshegi, fen=None, text=None, begun_from=None, is_kept=False):
        self.jatshegi = jatshegi
        self.board, self.tags, self.result, self.draft = jatshegi.Board(), {}, "*", None
        self.states, self.at, self.is_kept = [], -1, is_kept
        self.begun_from = begun_from if begun_from is None or begun_from.is_kept else begun_from.begun_from
        if text:
            game = jatshegi.pgn.read_game(text.encode(), repaired=lambda _: None)
            self.board = jatshegi.Board.from_game(game)
            self.tags = {name: value for name, value in game.headers.items() if name not in ("Result", "FEN", "SetUp")}
            self.result = game.result
        if fen:
            self.board.line(f"set {fen}")
        self.note()

    def exported(self):
        # (the line answers with the moves alone: no tags are known there, and no result)
        head, movetext = self.board.line("pgn").split("\n\n", 1)
        start = "".join(f"{line}\n" for line in head.split("\n") if line.startswith(("[FEN ", "[SetUp ")))
        moves = movetext.rstrip()[:-1] + self.result
        return str(self.jatshegi.pgn.read_game(("".join(f'[{name} "{escaped(value)}"]\n' for name, value in self.tags.items()) + f"{start}\n{moves}\n").encode()))

    def note(self):
        state = [self.exported(), self.board.line("path"), self.board.fen(), self.board.line("pgn"), dict(self.tags), self.result]
        if self.at >= 0 and self.states[self.at][0] == state[0]:
            self.states[self.at] = state
            return
        self.states[self.at + 1:] = [state]
        self.at += 1
        self.left.clear()
        self.is_kept = self.is_kept or self.at > 0

    def settle(self):
        if self.draft is not None:
            if self.board.line(f"comment {self.draft}") != "ok":
                return False
            self.draft = None
            self.note()
        return True

    def do(self, line, tags=None, result=None):
        if not self.settle():
            return
        if line is None or not self.board.line(line).startswith("refused"):
            self.tags = self.tags if tags is None else tags
            self.result = result or self.result
        self.note()

    def mark(self, nag):
        """A move has one mark of those of moves, 1 to 6, and one of those of positions; the same once more takes it out."""
        path = self.board.line("path") if self.settle() else "-"
        if path == "-":
            return
        node = self.jatshegi.pgn.read_game(self.states[self.at][0].encode()).root
        for i in path.split("."):
            node = node.children[int(i)]
        had = tuple(node.nags)
        assert self.jatshegi._library.lib.jatshegi_board_clear_annotations(self.board._at) == 0
        for it in [it for it in had if (it > 6) != (nag > 6)] + ([] if nag in had else [nag]):
            self.board.line(f"nag {it}")
        self.note()

    def comment(self):
        """The comment at the cursor, without one that is being typed."""
        node = self.jatshegi.pgn.read_game(self.states[self.at][0].encode()).root
        path = self.board.line("path")
        for i in [] if path == "-" else path.split("."):
            node = node.children[int(i)]
        return node.comment

    def draw(self, item):
        """An arrow or a circle more, in the place of one of another colour, or one less."""
        if self.settle():
            self.board.line(f"comment {with_words(toggled(self.comment(), item), words_of(self.comment()))}")
            self.note()

    def can_return(self):
        return bool(self.left) and self.left[-1][1:] == (self, self.at)

    def travel(self, by):
        """A step of undo or redo: the model of the game that is then on the board."""
        if not self.settle():
            return self
        if by < 0 and self.at == 0 and self.begun_from:
            self.left.append((self, self.begun_from, self.begun_from.at))
            return self.begun_from
        if by > 0 and self.can_return():
            return self.left.pop()[0]
        if not 0 <= self.at + by < len(self.states):
            return self
        self.at += by
        _, path, _, pgn, tags, self.result = self.states[self.at]
        self.board, self.tags = self.jatshegi.Board.from_game(self.jatshegi.pgn.read_game(pgn.encode())), dict(tags)
        self.board.line("start" if path == "-" else f"goto {path}")
        return self

    def seen(self):
        return [*self.states[self.at][:3], self.draft, self.at > 0 or self.begun_from is not None, self.at + 1 < len(self.states) or self.can_return()]


GAMES = [
    '[White "One"]\n[Black "Two"]\n\n{r} 1. e4 {a} (1. e4 {b} e5) (1. d4 $1 d5 (1... f5 {y})) 1... c5 2. Nf3 1/2-1/2',
    '[Event "Ends"]\n[FEN "7k/P7/8/8/8/8/8/K7 w - - 4 60"]\n\n60. a8=Q+ {so it goes} Kh7 (60... Kg7 $14 $5) 1-0',
    "1. f3 e5 2. g4 Qh4# 0-1",
    '[White "Clocks"]\n\n1. e4 {[%eval 0.18] [%clk 0:05:00] best by test [%cal Ge2e4,Rd1h5]} e5 {[%csl Yd5][%clk 0:04:59.3]} (1... c5 {[%cal Gc5d4]}) 2. Nf3 {[%odd [%csl Ge4] a] [%x] b} *',
    '[White "\u00c5 \\"b\\" \\\\ c"]\n[Date "2024.??.??"]\n[WhiteElo "?"]\n[Custom ""]\n\n1. c4 {x} *',
]
# Games that can't be read: the page shows them repaired.
BAD = [
    '[White "Bad"]\n[Date "2024.02.30"]\n\n1. e4 {a} e5 2. Ke3 Nf6 {b} *',
    '[White "Half]\n[Black "Two"]\n\n1. e2-e4 e5 2. Nf3 Nc6 3. Bc4 Bc5 4. OO Nf6 (4... d6 5. c3 {open',
    "1. d4 d5 (1... Nf6 2. Zz9 g6) 2. c4 e6?? {[%eval 0.4] so} 3. nc3 1-0",
    '[FEN "7k/P7/8/8/8/8/8/K7 w - - 4 60"]\n\n60. a8=Q+ Kh7 61. Qa8 Kg6 *',
]


class Keeping(Browsing):
    """The tests, for each browser."""

    RANDOM_DOINGS = 160

    def doing(self, rng, models, model):
        """One random thing on the page and beside it: what was done, and the model of the game that is then on the board."""
        page, keys = self.page, {"ctrl": "\ue009", "shift": "\ue008"}
        what = rng.choice(["play"] * 6 + ["type"] * 2 + ["undo", "undo", "ctrl-z", "redo", "ctrl-y", "ctrl-shift-z", "reload", "reload"]
                          + ["draw", "draw", "another", "open", "open", "edit", "edit", "listed", "address", "no address", "illegal", "enter", "escape", "back", "forward", "start", "end", "nag", "delete", "promote", "tag", "result", "new", "fen", "paste"])
        board = model.board
        if what == "type":
            model.draft = rng.choice(["good", "so-so", "sch\u00f6n (it) is; $5 %", "a } brace", "word " * 12 + "end"]) + f" {rng.randrange(1000)}"
            page.type("comment", model.draft, then="")
            model.draft = with_words(re.findall(COMMAND, model.comment()), model.draft)
            model.is_kept = True
        elif what == "draw":
            first, second = rng.choice([("e4", "e4"), ("d5", "d5"), ("e2", "e4"), ("c5", "d4")])
            is_red = rng.randrange(3) == 0
            page.draw(first, second, shiftKey=is_red)
            model.draw(f"{'R' if is_red else 'G'}{first}{'' if first == second else second}")
        elif what == "no address":
            page.script("location.hash = arguments[0]", f"fen=8/8/8/8/8/8/8/8_w_-_-_0_{rng.randrange(1, 9999)}")
            page.until_told("The address names no position")
        elif what in ("another", "new", "fen", "edit", "paste", "listed", "address", "open"):
            at, fen, text = rng.randrange(len(models)), None, None
            if what in ("another", "new"):
                page.script("document.getElementById(arguments[0]).click()", what)
            elif what == "fen":
                fen = rng.choice(["r3k2r/8/8/8/8/8/8/R3K2R w KQkq - 3 7", "8/8/8/8/8/8/8/8 w - - 0 1", "4k3/8/8/3pP3/8/8/8/4K3 w - d6 0 2"])
                page.set_fen_now(fen)
            elif what == "edit":
                fen = self.edit(rng)
            elif what == "paste":
                text = rng.choice(rng.choice([GAMES, BAD]))
                page.paste(text)
            elif what == "listed":
                fens = [f"r3k2r/8/8/8/8/8/8/R3K2R b KQkq - {rng.randrange(50)} 7", "4k3/8/8/3pP3/8/8/8/4K3 w - d6 0 2"]
                fen = rng.choice(fens)
                page.paste("\n".join(fens))
                page.until(lambda: page.script("return [...document.querySelectorAll('#games button')].map((it) => it.title)") == fens, "the positions are listed")
                page.script("document.querySelectorAll('#games button')[arguments[0]].click()", fens.index(fen))
            elif what == "address":
                fen = f"4k3/8/8/8/8/8/8/R3K3 w Q - {rng.randrange(50)} {rng.randrange(1, 9999)}"
                page.script("location.hash = arguments[0]", f"fen={fen.replace(' ', '_')}")
            else:
                page.script("document.querySelectorAll('#own .open')[arguments[0]].click()", at)
            is_refused = fen is not None and test_web.library().Board().line(f"set {fen}") != "ok"
            if (what == "open" and models[at] is model) or not model.settle() or is_refused:
                other = model
            else:
                other = models[at] if what == "open" else Model(test_web.library(), fen, text, model, what in ("fen", "edit", "paste"))
            if what == "edit":
                page.until(lambda: self.seen() == other.seen(), f"{fen} is set, or refused: {other.seen()}, not {self.seen()}")
                # (where it is refused the box stays)
                page.script("document.getElementById('fenbox').close()")
            self.put_in(models, model, other)
            return what, other
        elif what == "escape":
            page.at("comment").send_keys("\ue00c")
            model.draft = None
        elif what == "enter":
            page.at("comment").send_keys("\n")
            model.settle()
        elif what in ("play", "illegal"):
            move = rng.choice(board.legal_moves) if what == "play" and board.legal_moves else None
            page.type("san", as_typed(rng, board, move) if move else rng.choice(["Kh8", "k h8!", "e9-e8"]))
            model.do(f"play {board.san(move) if move else 'Kh8'}")
        elif what in ("undo", "redo"):
            page.script("document.getElementById(arguments[0]).click()", what)
            return what, self.put_in(models, model, model.travel(-1 if what == "undo" else 1))
        elif what.startswith("ctrl"):
            self.press(keys["ctrl"], *([keys["shift"]] if "shift" in what else []), what[-1])
            return what, self.put_in(models, model, model.travel(-1 if what == "ctrl-z" else 1))
        elif what == "reload":
            model.left.clear()
            # (a position with which nothing was done is kept by its address alone)
            place = "" if model.is_kept or board.fen() == test_web.library().Board().fen() else f"#fen={board.fen().replace(' ', '_')}"
            page.until(lambda: model.is_kept or page.script("return location.hash") == place, f"the address has {place}")
            self.reload(place)
        elif what == "nag":
            nag = rng.choice([1, 5, 14])
            page.choose("nag", str(nag))
            model.mark(nag)
        elif what == "tag":
            field, name = rng.choice(list(TAGS.items()))
            value = rng.choice(["", "Caf\u00e9, A.", 'the "great"', "back\\slash", '\\"', "ends \\", '"', "] [x", "\u738b\u7693 \U0001f3c6 \u2654", f"{{n}} ({rng.randrange(9)})"])
            page.script("const it = document.getElementById(arguments[0]); it.value = arguments[1]; it.dispatchEvent(new Event('change'))", field, value)
            tags = {key: it for key, it in model.tags.items() if key != name}
            self.retag(model, {**tags, **({name: value} if value else {})}, None)
        elif what == "result":
            result = rng.choice(["*", "1-0", "0-1", "1/2-1/2"])
            page.choose("tagResult", result)
            self.retag(model, None, result)
        else:
            page.script("document.getElementById(arguments[0]).click()", what)
            model.do("step 0" if what == "forward" else what)
        return what, model

    def put_in(self, models, model, other):
        """Another game is on the board: the list has that, and has the one that was there if something was done with it."""
        if other is not model and not model.is_kept:
            models.remove(model)
        if other not in models:
            models.append(other)
        return other

    def edit(self, rng):
        """Sets a position up in the board editor, which may be none, and returns the FEN that it is to have."""
        page, men = self.page, {}
        page.script("document.getElementById('menufen').click(); document.getElementById('editempty').click()")
        kings = rng.sample(SQUARES, 2 if rng.randrange(5) else 1)
        for letter, square in [*zip("Kk", kings), *((rng.choice("QRBNPqrbnp"), rng.choice(SQUARES)) for _ in range(rng.randrange(4)))]:
            men[square] = letter
            page.script("""
                const it = document.querySelector(`[data-edit=${arguments[0]}]`);
                it.focus();
                it.dispatchEvent(new KeyboardEvent('keydown', { key: arguments[1], bubbles: true, cancelable: true }));
            """, square, letter)
        side = rng.choice("wb")
        page.script("const it = document.getElementById('editside'); it.value = arguments[0]; it.dispatchEvent(new Event('input'))", side)
        rows = ("".join(men.get(f"{file}{rank}", "1") for file in "abcdefgh") for rank in range(8, 0, -1))
        fen = f"{re.sub('1+', lambda it: str(len(it[0])), '/'.join(rows))} {side} - - 0 1"
        self.assertEqual(page.script("return document.getElementById('fen').value"), fen)
        page.script("document.querySelector('#fenform button.main').click()")
        return fen

    def retag(self, model, tags, result):
        """The names and the result are changed at once, and no comment that is being typed is set by it."""
        model.tags = model.tags if tags is None else tags
        model.result = result or model.result
        model.note()

    def test_random_doings_undone_and_reloaded_lose_nothing(self):
        rng, model, done = random.Random(65), Model(test_web.library()), []
        models = [model]
        model.left.clear()
        for _ in range(self.RANDOM_DOINGS):
            what, model = self.doing(rng, models, model)
            done.append(what)
            # (what is pasted comes when it has been read, and the list of games when they are kept)
            self.page.until(lambda: self.page.script("return document.querySelectorAll('#own .open').length") == len(models), f"after {done[-8:]}: {len(models)} games")
            self.page.until(lambda: self.seen() == model.seen(), f"after {done[-8:]}: {model.seen()}, not {self.seen()}")
        while model.seen()[4]:
            model.draft = None
            self.page.at("comment").send_keys("\ue00c")
            self.page.script("document.getElementById('undo').click()")
            model = model.travel(-1)
            self.assertEqual(self.seen(), model.seen())
        while model.seen()[5]:
            self.page.script("document.getElementById('redo').click()")
            model = model.travel(1)
            self.assertEqual(self.seen(), model.seen())

    def test_each_change_is_undone_and_done_again(self):
        page = self.page
        page.play("e4", "e5", "Nf3")
        page.click("back")
        page.play("Nc3")
        changes = [
            lambda: page.type("comment", "a word"), lambda: page.choose("nag", "3"), lambda: page.script("document.getElementById('promote').click()"),
            lambda: page.script("document.getElementById('delete').click()"), lambda: page.set_fen_now("4k3/8/8/8/8/8/8/R3K3 w - - 0 1"),
            lambda: page.paste(GAMES[0]), lambda: page.choose("tagResult", "1-0"), lambda: page.script("document.getElementById('new').click()"),
        ]
        texts = [self.seen()[:3]]
        for change in changes:
            change()
            page.until(lambda: self.seen()[0] != texts[-1][0], f"change {len(texts)} is made")
            texts.append(self.seen()[:3])
        for wanted in reversed(texts[:-1]):
            self.press("\ue009", "z")
            self.assertEqual(self.seen()[:3], wanted)
        for wanted in texts[1:]:
            self.press("\ue009", "\ue008", "z")
            self.assertEqual(self.seen()[:3], wanted)

    def test_what_begins_a_game_leaves_the_one_that_is_there(self):
        page = self.page
        ways = {
            "new": lambda: page.script("document.getElementById('new').click()"), "a position": lambda: page.set_fen_now("4k3/8/8/8/8/8/8/R3K3 w - - 0 1"),
            "a paste": lambda: page.paste(GAMES[2]), "what is dropped": lambda: page.script("""
                const given = new DataTransfer();
                given.setData('text', arguments[0]);
                document.body.dispatchEvent(new DragEvent('drop', { dataTransfer: given, bubbles: true, cancelable: true }));
            """, GAMES[2]),
        }
        for name, begin in ways.items():
            page.open()
            page.play("e4", "e5", "Nf3")
            had = self.text()
            begin()
            page.until(lambda: self.text() != had, f"{name} begins a game")
            page.script("document.getElementById('start').click()")
            page.type("san", "Ra8" if name == "a position" else "d4")
            page.until(lambda: "Ra8" in page.moves or "d4" in page.moves, "a move is made there")
            other = self.text()
            while self.text() != had:
                page.script("document.getElementById('undo').click()")
            page.script("document.getElementById('undo').click()")
            page.until_moves("1. e4 e5")
            page.play("a3")
            self.reload()
            found = set()
            for number in range(2):
                page.script("document.querySelectorAll('#own .open')[arguments[0]].click()", number)
                found.update([self.text()])
                while self.seen()[5]:
                    page.script("document.getElementById('redo').click()")
                found.add(self.text())
            self.assertIn(other, found, name)
            self.assertTrue([it for it in found if "2. a3" in it], name)

    def test_what_can_not_be_written_is_said_and_not_lost(self):
        page = self.page
        page.play("e4")
        self.until_kept()
        page.script("""
            const own = IDBObjectStore.prototype.put;
            window.putsAgain = () => { IDBObjectStore.prototype.put = own; };
            IDBObjectStore.prototype.put = () => { throw new DOMException('no room', 'QuotaExceededError'); };
        """)
        page.play("e5")
        page.until(lambda: "is not kept in this browser" in page.text("unkept"), "it is said")
        asks = "const event = new Event('beforeunload', { cancelable: true }); dispatchEvent(event); return event.defaultPrevented"
        shown = "const it = document.getElementById('unkept'); const r = it.getBoundingClientRect(); return it.checkVisibility() && r.top >= 0 && r.bottom <= innerHeight && r.height > 20"
        self.assertEqual((page.script(asks), page.script(shown)), (True, True))
        had = self.text()
        page.script("document.getElementById('new').click()")
        page.until_moves("")
        page.play("d4")
        page.script("document.getElementById('undo').click()")
        page.until_moves("")
        page.script("document.getElementById('undo').click()")
        self.until_text(had)
        page.script("putsAgain()")
        page.play("Nf3")
        self.until_kept()
        self.assertEqual((page.text("unkept"), page.script(asks), page.script(shown)), ("", False, False))
        had = self.text()
        self.reload()
        self.assertEqual(self.text(), had)
        self.assertEqual(page.script("return document.querySelectorAll('#own .open').length"), 2)

    def test_the_browser_is_asked_to_keep_what_was_made(self):
        page = self.page
        page.script("window.asked = 0; navigator.storage.persisted = async () => false; navigator.storage.persist = async () => { window.asked++; return true; }")
        page.script("document.getElementById('new').click()")
        page.until_moves("")
        self.assertEqual(page.script("return window.asked"), 0)
        page.play("e4", "e5")
        self.until_kept()
        self.assertEqual(page.script("return window.asked"), 1)

    def test_a_game_that_an_earlier_page_kept_is_opened(self):
        """It kept the tags and the result beside what the board wrote of the moves."""
        page, model = self.page, Model(test_web.library())
        for line, tags, result in [
            ("play e4", None, None), ("comment sch\u00f6n", {"White": 'The "great" \\', "Custom": "\u2654"}, "1-0"),
            ("set 4k3/8/8/8/8/8/8/R3K3 w Q - 5 20", {}, "*"), ("play Ra8", {"Black": "B"}, "1/2-1/2"),
        ]:
            model.do(line, tags, result)
        model.at = 2

        def kept(text):
            return text.encode().decode("latin-1")

        states = [{"game": "older", "number": number, "tags": [[name, kept(value)] for name, value in tags.items()], "result": result, "origin": None, "pgn": kept(pgn), "path": path}
                  for number, (_, path, _, pgn, tags, result) in enumerate(model.states, 3)]
        record = {"id": "older", "serial": 1, "name": "", "players": "", "version": 4, "made": 1, "removed": 0, "link": "", "files": [], "draft": None, "at": 5, "path": "0", "changed": 2}
        self.until_kept()
        self.in_store("""
            const [record, states] = given;
            games.put(record);
            for (const it of states) kept.put(it);
            sessionStorage.setItem('game', record.id);
        """, record, states)
        self.reload()
        self.assertEqual((self.seen(), page.text("told")), (model.seen(), ""))
        for by in [-1, -1, 1, 1, 1, 1, -1]:
            page.script("document.getElementById(arguments[0]).click()", "undo" if by < 0 else "redo")
            model.travel(by)
            self.assertEqual((self.seen(), page.text("told")), (model.seen(), ""))
        self.reload()
        self.assertEqual(self.seen(), model.seen())
        # (each state is kept as its text)
        found = self.in_store("kept.getAll().onsuccess = ({ target }) => { found = target.result.map(({ game, number, pgn, ...more }) => [game, number, pgn, Object.keys(more).sort()]); };")
        self.assertEqual(found, [["older", number, state[0].encode().decode("latin-1"), ["origin", "path"]] for number, state in enumerate(model.states, 3)])

    def in_store(self, does, *words):
        """Does something with the games and the states that the browser keeps."""
        return self.browser.execute_async_script("""
            const [given, done] = arguments;
            const request = indexedDB.open('jatshegi', 1);
            request.onsuccess = () => {
              const db = request.result;
              const transaction = db.transaction(['games', 'states'], 'readwrite');
              const [games, kept] = [transaction.objectStore('games'), transaction.objectStore('states')];
              let found = null;
              transaction.oncomplete = () => {
                db.close();
                done(found);
              };
              DOES
            };
        """.replace("DOES", does), list(words))

    def test_a_name_that_is_refused_leaves_the_game(self):
        page = self.page
        page.play("e4")
        page.script("const it = document.getElementById('tagWhite'); it.value = 'Anna'; it.dispatchEvent(new Event('change'))")
        page.until(lambda: page.text("player1") == "Anna", "it has its name")
        had = self.seen()
        page.shows("tagWhite")
        # (a field of that type has what it is given, line feeds and all)
        page.script("const it = document.getElementById('tagWhite'); it.type = 'hidden'; it.value = 'two\\nlines'; it.dispatchEvent(new Event('change'))")
        page.until_told("White stays as it was: It has more than one line.")
        self.assertEqual((self.seen(), page.text("tagtold"), page.text("player1")), (had, "White stays as it was: It has more than one line.", "Anna"))
        page.script("const it = document.getElementById('tagWhite'); it.value = 'Berta'; it.dispatchEvent(new Event('change'))")
        page.until(lambda: page.text("player1") == "Berta", "another is set")
        self.assertEqual((page.text("told"), page.text("tagtold")), ("", ""))
        page.closes()

    def test_a_field_with_a_text_undoes_that_and_an_empty_one_the_move(self):
        page = self.page
        page.play("e4", "e5")
        page.at("comment").send_keys("typed")
        self.press("\ue009", "z", blurs=False)
        self.assertEqual((self.seen()[1], page.moves), ("0.0", "1. e4 e5"))
        page.at("comment").send_keys("\ue00c")
        page.at("san").click()
        self.press("\ue009", "z", blurs=False)
        page.until_moves("1. e4")

    def test_a_game_that_no_link_holds_comes_back(self):
        rng = random.Random(1)
        comment = " ".join("".join(rng.choice("abcdefghijklmnopqrstuvwxyz0123456789") for _ in range(12)) for _ in range(9000))
        self.page.play("d4")
        self.page.until(lambda: "#g=" in self.page.script("return location.hash"), "the address holds the game")
        self.page.paste(f"1. e4 {{{comment}}} e5 *")
        self.page.until(lambda: self.page.moves.startswith("1. e4"), "it is read")
        self.page.until(lambda: self.page.script("return location.hash") == "", "the address holds no other game")
        had = self.seen()
        self.reload()
        self.assertEqual(self.seen(), had)

    def test_a_comment_that_is_being_typed_comes_back(self):
        page = self.page
        page.play("e4", "e5")
        page.type("comment", "half a sent", then="")
        self.reload()
        self.assertEqual(page.script("return document.getElementById('comment').value"), "half a sent")
        page.click("back")
        page.until(lambda: page.moves == "1. e4 e5 half a sent", "it is set")

    def test_several_games_with_their_names(self):
        page = self.page

        def names():
            return page.script("return [...document.querySelectorAll('#own .open')].map((it) => it.firstChild.data.trim())")

        page.play("e4")
        page.script("const it = document.getElementById('name'); it.value = 'Mine'; it.dispatchEvent(new Event('change'))")
        first = self.text()
        page.script("document.getElementById('another').click()")
        page.until(lambda: page.moves == "", "another game is begun")
        page.play("d4", "d5")
        page.script("const it = document.getElementById('tagWhite'); it.value = 'Anna'; it.dispatchEvent(new Event('change'))")
        page.until(lambda: names() == ["Mine", "Anna \u2013 ?"], "both are listed")
        second = self.text()
        self.reload()
        self.assertEqual(self.text(), second)
        page.script("document.querySelector('#own .open').click()")
        self.until_text(first)
        self.assertTrue(self.seen()[4])
        page.script("document.querySelectorAll('#own li')[1].lastChild.click()")
        page.until(lambda: names() == ["Mine"] and page.script("return document.querySelector('#away button') !== null"), "one is put away")
        page.script("document.querySelector('#away button').click()")
        page.until(lambda: names() == ["Mine", "Anna \u2013 ?"], "it is brought back")
        page.script("document.querySelectorAll('#own .open')[1].click()")
        self.until_text(second)
        page.script("document.querySelectorAll('#own li')[1].lastChild.click()")
        page.until(lambda: page.moves == "" and page.script("return document.querySelector('#away button') !== null"), "the one on the board is put away")
        page.script("document.querySelector('#away button').click()")
        page.until(lambda: "Anna \u2013 ?" in names(), "it is brought back")

    def test_a_comment_typed_as_its_game_goes_comes_back_with_that(self):
        """It is typed after another game was asked for, and before that is there."""
        page = self.page
        page.play("e4", "e5")
        page.script("""
            document.getElementById('new').click();
            (async () => {
              // (what was asked for is on its way to the board)
              for (let i = 0; i < 30; i++) await null;
              const it = document.getElementById('comment');
              it.value = 'late';
              it.dispatchEvent(new Event('input'));
            })();
        """)
        page.until_moves("")
        self.assertIsNone(self.seen()[3])
        self.reload()
        page.script("document.getElementById('undo').click()")
        page.until_moves("1. e4 e5")
        self.assertEqual((self.seen()[3], page.script("return document.getElementById('comment').value")), ("late", "late"))

    def test_two_windows_with_one_game_lose_nothing(self):
        page = self.page
        page.play("e4")
        # (its link is kept a little later: this window is the first to do so, and the other to go on)
        page.until(lambda: "#g=" in page.script("return location.hash"), "the address holds the game")
        self.until_kept()
        page.script("""
            const it = document.createElement('iframe');
            it.src = location.pathname;
            it.id = 'other';
            document.body.append(it);
        """)
        inner = "const page = document.getElementById('other').contentDocument; "
        page.until(lambda: page.script(inner + "return page.documentElement?.dataset.ready") == "yes", "the other window is ready")
        page.script(inner + "page.getElementById('san').value = 'c5'; page.getElementById('sanform').requestSubmit()")
        page.until(lambda: page.script(inner + "return page.documentElement.dataset.kept === 'yes' && page.getElementById('moves').textContent.includes('c5')"), "a move is made there")
        page.play("e5")
        self.until_kept()
        page.until(lambda: len(page.script("return [...document.querySelectorAll('#own .open')].map((it) => it.textContent)")) == 2, "there are two games")
        self.browser.get("about:blank")
        page.open(keeps=True)
        found = set()
        for number in range(2):
            page.script("document.querySelectorAll('#own .open')[arguments[0]].click()", number)
            self.seen()
            found.add(page.moves)
        self.assertEqual(found, {"1. e4 c5", "1. e4 e5"})

    def test_a_link_is_opened_beside_the_own_game(self):
        page = self.page
        page.play("e4", "e5")
        page.until(lambda: "#g=" in page.script("return location.hash"), "the address holds the game")
        page.until(lambda: page.script("return location.hash").endswith("p=0.0"), "and its place")
        link = page.script("return location.hash")
        page.play("Nf3")
        page.script("document.getElementById('another').click()")
        page.until_moves("")
        page.play("d4")
        self.until_kept()
        self.browser.get("about:blank")
        page.open(link, keeps=True)
        page.until_moves("1. e4 e5")
        page.until(lambda: page.script("return document.querySelectorAll('#own li').length") == 3, "all three are there")
        self.reload()
        page.until_moves("1. e4 e5")

    def test_a_file_opens_beside_and_a_game_goes_back_into_its_place(self):
        page = self.page
        page.play("e4", "e5", "Nf3")
        page.type("comment", "mine")
        own = self.text()
        games = ['[White "One"]\n\n1. e4 e5 1-0', '\n\n% a line that readers pass over\n[White "Two"]\n[Custom "x"]\n\n1. d4 {kept} d5 (1... Nf6) 0-1', '\r\n\r\n[White "Bad"]\r\n\r\n1. e4 e4 *', '\n\n[White "Four"]\n\n1. c4 c5 *\n']
        with tempfile.NamedTemporaryFile(suffix=".pgn", dir=self.folder) as file:
            file.write("".join(games).encode())
            file.flush()
            page.at("file").send_keys(file.name)
            page.until(lambda: page.text("howmany") == "3 games, and 1 that can\u2019t be read", "the games are listed")
            name = os.path.basename(file.name)
        page.until_moves("1. e4 e5")
        # (it is kept, though nothing was done with it)
        page.until(lambda: page.text("gamename") == "One \u2013 ?", "it has its name")
        first = self.text()
        self.reload()
        self.assertEqual(self.text(), first)
        page.until(lambda: page.text("howmany").startswith("3 games"), "the games are listed again")
        for number in (1, 2, 1):
            page.script("document.querySelectorAll('#games li:not(.bad) button')[arguments[0]].click()", number)
            page.until(lambda: ("c4" if number == 2 else "d4") in page.moves, "it is on the board")
        page.play("c4")
        page.script("document.getElementById('tagBlack').value = 'Black'; document.getElementById('tagBlack').dispatchEvent(new Event('change'))")
        changed = self.text()
        self.assertEqual(page.script("return document.querySelectorAll('#own .open').length"), 2)
        self.reload()
        self.assertEqual(self.text(), changed)
        page.until(lambda: page.text("howmany") == "3 games, and 1 that can\u2019t be read", "the games are listed again")
        written = self.saved_back(name)
        # (the line that readers pass over is before the game, and stays)
        self.assertEqual(written.decode(), games[0] + "\n\n% a line that readers pass over\n" + changed.rstrip() + "".join(games[2:]))
        page.script("document.querySelector('#own .open').click()")
        self.until_text(own)

    def test_a_listed_game_that_was_changed_is_not_lost_by_one_that_was_looked_at_before(self):
        page = self.page
        page.play("e4", "e5")
        own = self.text()
        with tempfile.NamedTemporaryFile(suffix=".pgn", dir=self.folder) as file:
            file.write(b"1. d4 *\n\n1. c4 *\n\n1. Nf3 *\n")
            file.flush()
            page.at("file").send_keys(file.name)
            page.until_moves("1. d4")
            page.until(lambda: page.text("howmany") == "3 games", "they are listed")
        for number, moves in ((1, "1. c4"), (2, "1. Nf3")):
            page.script("document.querySelectorAll('#games button')[arguments[0]].click()", number)
            page.until_moves(moves)
        page.script("document.getElementById('undo').click()")
        page.until_moves("1. c4")
        page.script("document.getElementById('end').click()")
        page.play("c5", "g3")
        changed = self.text()
        self.reload()
        for _ in range(2):
            page.script("document.getElementById('undo').click()")
        page.until_moves("1. c4")
        page.script("document.getElementById('undo').click()")
        self.until_text(own)
        page.play("Nf3")
        page.script("document.querySelectorAll('#own .open')[1].click()")
        page.until_moves("1. c4")
        for _ in range(2):
            page.script("document.getElementById('redo').click()")
        self.until_text(changed)
        # (what was changed stays beside another of the list)
        page.until(lambda: page.text("howmany") == "3 games", "they are listed again")
        page.script("document.querySelectorAll('#games button')[0].click()")
        page.until_moves("1. d4")
        page.until(lambda: page.script("return document.querySelectorAll('#own .open').length") == 3, "all three are there")

    def saved_back(self, name):
        path = f"{self.folder}/{name}"
        if os.path.exists(path):
            os.remove(path)
        self.page.script("document.getElementById('saveback').click()")
        self.page.until(lambda: os.path.exists(path) and os.path.getsize(path) and not [it for it in os.listdir(self.folder) if it.endswith((".crdownload", ".part"))], "the file is written")
        with open(path, "rb") as file:
            return file.read()

    def test_what_was_made_is_there_after_a_crash(self):
        page = self.page
        page.play("e4", "c5", "Nf3")
        page.type("comment", "before the crash")
        page.click("back")
        page.type("comment", "half", then="")
        had = self.seen()
        self.until_kept()
        self.kill()
        try:
            self.browser.quit()
        except OSError:
            # (it has gone)
            pass
        type(self).browser = self.new(self.folder)
        type(self).page = page = test_web.Page(self.browser)
        page.open(keeps=True)
        self.assertEqual(self.seen(), had)
        self.page.at("comment").send_keys("\ue00c")
        for _ in range(4):
            self.page.script("document.getElementById('undo').click()")
        self.assertEqual((self.seen()[4], self.page.moves), (False, ""))


class InChromium(Keeping, unittest.TestCase):
    @staticmethod
    def new(folder):
        return test_web.new_browser(folder, f"--user-data-dir={folder}/profile")

    def kill(self):
        """Ends the browser's processes, and no others, without a word."""
        for pid in filter(str.isdigit, os.listdir("/proc")):
            try:
                with open(f"/proc/{pid}/cmdline", "rb") as file:
                    is_ours = f"--user-data-dir={self.folder}/profile".encode() in file.read().split(b"\0")
                if is_ours:
                    os.kill(int(pid), signal.SIGKILL)
            except OSError:
                pass
        time.sleep(0.5)
        for name in ("SingletonLock", "SingletonCookie", "SingletonSocket"):
            if os.path.lexists(f"{self.folder}/profile/{name}"):
                os.remove(f"{self.folder}/profile/{name}")

    def test_where_nothing_can_be_kept_a_game_takes_the_place_of_another(self):
        page = self.page
        added = self.browser.execute_cdp_cmd("Page.addScriptToEvaluateOnNewDocument", {"source": "Object.defineProperty(globalThis, 'indexedDB', { value: undefined });"})
        try:
            page.open(keeps=True)
        finally:
            self.browser.execute_cdp_cmd("Page.removeScriptToEvaluateOnNewDocument", added)
        self.assertEqual((page.text("unkept"), page.text("keeping")), ("", "not kept"))
        page.play("e4")
        self.assertIn("Nothing is kept in this browser", page.text("unkept"))
        self.assertTrue(page.script("const event = new Event('beforeunload', { cancelable: true }); dispatchEvent(event); return event.defaultPrevented"))
        had = self.text()
        for begin in (lambda: page.click("new"), lambda: page.set_fen("4k3/8/8/8/8/8/8/R3K3 w - - 0 1"), lambda: page.paste("1. d4 *")):
            begin()
            page.until(lambda: self.text() != had, "another game is begun")
            page.script("document.getElementById('undo').click()")
            self.until_text(had)

    def test_a_file_that_may_be_written_is(self):
        """The browser gives a file to be written: here one of its own."""
        page = self.page
        text = '[White "One"]\n\n1. e4 e5 *\n\n[White "Two"]\n\n1. d4 d5 *\n'
        self.browser.execute_async_script("""
            const [text, done] = arguments;
            (async () => {
              const root = await navigator.storage.getDirectory();
              window.given = await root.getFileHandle('mine.pgn', { create: true });
              const out = await given.createWritable();
              await out.write(text);
              await out.close();
              window.showOpenFilePicker = async () => [given];
            })().then(() => done(''), (error) => done(String(error)));
        """, text)
        read = "const done = arguments[0]; given.getFile().then((it) => it.text()).then(done)"
        page.script("document.getElementById('open').click()")
        page.until(lambda: page.text("howmany") == "2 games", "the games are listed")
        page.until_moves("1. e4 e5")
        page.play("Nf3")
        wanted = self.text().rstrip() + text[text.index("\n\n[White \"Two"):]
        page.script("document.getElementById('saveback').click()")
        page.until_told("The game is in its place in mine.pgn.")
        self.assertEqual(self.browser.execute_async_script(read), wanted)
        self.browser.execute_async_script("const done = arguments[0]; given.createWritable().then(async (it) => { await it.write('other'); await it.close(); done(); })")
        page.play("Nc6")
        page.script("document.getElementById('saveback').click()")
        page.until_told("was changed since it was opened")
        self.assertEqual(self.browser.execute_async_script(read), "other")


@unittest.skipUnless(shutil.which("firefox-esr"), "the package firefox-esr is missing")
class InFirefox(Keeping, unittest.TestCase):
    RANDOM_DOINGS = 60

    @staticmethod
    def new(folder):
        return firefox.Firefox(folder)

    def kill(self):
        self.browser.kill()


if __name__ == "__main__":
    unittest.main()

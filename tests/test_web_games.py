"""Games as people have them, with clocks, evaluations, arrows and circles in their comments: the page shows these, and keeps them."""
import json
import re
import shutil
import struct
import unittest

import firefox
import test_web
from test_web_keeping import Browsing

setUpModule, tearDownModule = test_web.setUpModule, test_web.tearDownModule

# As lichess writes a game, and with what other programs write.
GAME = (
    '[White "A"]\n[Black "B"]\n[Result "1-0"]\n\n1. e4 { [%eval 0.18] [%clk 1:03:00] } 1... c5 { [%eval -0.25,20] [%clk 0:03:00] } 2. Nf3 { [%clk 0:00:09.37] [%csl Gc4,Rd6][%cal Ge4e5,Yg1f3] } 2... d6'
    " { (0.11) Inaccuracy. } { [%eval #-3] } (2... Nc6 { [%eval 12.4] [%emt 0:00:05] } 3. Bb5) 3. d4 { [%eval #2] [%clk soon] so } 1-0"
)
# What is shown of a move: its text, what is said of it small, and where its line begins.
MOVES = """
    return [...document.querySelectorAll('#moves .move')].map((it) => [it.firstChild.data.trim(), it.querySelector('small')?.textContent ?? '', it.getBoundingClientRect().top]);
"""
# The arrows and circles on the board: the kind, the colour, and the squares where they begin and end.
SHAPES = """
    const board = document.getElementById('board').getBoundingClientRect();
    const turned = document.querySelector('#board .square').dataset.square !== 'a8';
    const square = (x, y) => { const [a, b] = turned ? [7 - x, y] : [x, 7 - y]; return 'abcdefgh'[a] + (b + 1); };
    return [...document.querySelectorAll('#board .shapes > *')].map((it) => {
        const colour = it.getAttribute('class').slice(-1);
        if (it.tagName === 'circle') return `${colour}${square(Math.floor(it.cx.baseVal.value), Math.floor(it.cy.baseVal.value))}`;
        const [, x, y, angle] = /translate\\(([\\d.]+) ([\\d.]+)\\) rotate\\((-?[\\d.e]+)\\)/.exec(it.getAttribute('transform')).map(Number);
        const long = Number(/L([\\d.]+) 0L/.exec(it.getAttribute('d'))[1]) + 0.08;
        const [to, down] = [x + long * Math.cos(angle * Math.PI / 180), y + long * Math.sin(angle * Math.PI / 180)];
        return `${colour}${square(Math.floor(x), Math.floor(y))}${square(Math.floor(to), Math.floor(down))}`;
    });
"""


class Games(Browsing):
    def at(self, path):
        """The game of the text, at a node."""
        self.page.script("document.getElementById('start').click()")
        for name in path:
            self.page.script("document.getElementById(arguments[0]).click()", name)
        self.text()

    def given(self, text=GAME):
        self.page.paste(text)
        self.page.until(lambda: "e4" in self.page.moves, "the game is read")

    def clocks(self):
        return self.page.script("return ['player2', 'player1'].map((id) => document.querySelector(`#${id} .clock`).textContent)")

    def box(self):
        return self.page.script("return document.getElementById('comment').value")

    def shapes(self):
        return self.page.script(SHAPES)

    def test_clocks_evaluations_arrows_and_circles_are_shown(self):
        page = self.page
        self.given()
        shown = page.script(MOVES)
        self.assertEqual([it[:2] for it in shown], [["e4", "+0.2"], ["c5", "\u22120.3"], ["Nf3", ""], ["d6", "\u2212#3"], ["2... Nc6", "+12.4"], ["3. Bb5", ""], ["d4", "#2"]])
        # (two columns stay two)
        self.assertEqual((shown[0][2], shown[2][2]), (shown[1][2], shown[3][2]))
        self.assertNotIn("%", page.moves)
        self.assertIn("(0.11) Inaccuracy.", page.moves)
        found = []
        self.at([])
        for _ in range(5):
            found.append([*self.clocks(), self.box()])
            page.script("document.getElementById('forward').click()")
            self.text()
        self.assertEqual(found, [["", "", ""], ["", "Clock 1:03:00", ""], ["Clock 3:00", "Clock 1:03:00", ""], ["Clock 3:00", "Clock 0:09.3", ""], ["Clock 3:00", "Clock 0:09.3", "(0.11) Inaccuracy."]])
        self.assertEqual([*self.clocks(), self.box()], ["Clock 3:00", "Clock soon", "so"])
        page.script("[...document.querySelectorAll('#moves .move')].find((it) => it.textContent.includes('Nc6')).click()")
        self.text()
        self.assertEqual(self.clocks(), ["Time for the move 0:05", "Clock 0:09.3"])
        self.at(["forward"] * 3)
        for _ in range(2):
            self.assertEqual(sorted(self.shapes()), ["Gc4", "Ge4e5", "Rd6", "Yg1f3"])
            self.assertIn("red circle", page.square("d6").get_attribute("aria-label"))
            self.assertIn("yellow arrow to f3", page.square("g1").get_attribute("aria-label"))
            page.click("flip")
        # (turned, the clocks go with the players)
        page.click("flip")
        self.assertEqual(self.clocks(), ["Clock 0:09.3", "Clock 3:00"])
        page.script("document.getElementById('back').click()")
        self.text()
        self.assertEqual(self.shapes(), [])

    def test_they_are_kept_when_the_words_change(self):
        page = self.page
        self.given()
        self.at(["forward"] * 3)
        commands = "[%clk 0:00:09.37] [%csl Gc4,Rd6] [%cal Ge4e5,Yg1f3]"
        page.type("comment", "a knight")
        self.assertIn(f"{commands} a knight}}", " ".join(self.text().split()))
        self.assertEqual((self.box(), self.clocks()[1], len(self.shapes())), ("a knight", "Clock 0:09.3", 4))
        page.type("comment", "another", then="")
        self.reload()
        self.assertEqual((self.box(), self.clocks()[1]), ("another", "Clock 0:09.3"))
        page.at("comment").send_keys("\ue00c")
        self.assertEqual(self.box(), "a knight")
        page.type("comment", " ")
        self.assertIn(f"{commands}}}", " ".join(self.text().split()))
        # (what is typed may be a command)
        page.type("comment", "[%emt 0:00:07] quick")
        self.assertIn(f"{commands} [%emt 0:00:07] quick}}", " ".join(self.text().split()))
        self.assertEqual(self.box(), "quick")

    def test_arrows_and_circles_are_drawn_by_the_right_button(self):
        page = self.page
        page.play("e4")
        page.type("comment", "words", then="")
        self.right_drag("e4", "e5")
        page.until(lambda: "{[%cal Ge4e5] words}" in self.text(), "an arrow is in the comment")
        steps = [
            (("d5", "d5", {}), "[%cal Ge4e5] [%csl Gd5]"), (("d5", "d5", {"shiftKey": True}), "[%cal Ge4e5] [%csl Rd5]"), (("g1", "f3", {"altKey": True}), "[%cal Ge4e5,Bg1f3] [%csl Rd5]"),
            (("e4", "e5", {}), "[%cal Bg1f3] [%csl Rd5]"), (("h7", "a7", {"ctrlKey": True, "altKey": True}), "[%cal Bg1f3,Yh7a7] [%csl Rd5]"), (("d5", "d5", {"ctrlKey": True}), "[%cal Bg1f3,Yh7a7]"),
        ]
        texts = [self.text()]
        for (a, b, keys), commands in steps:
            page.draw(a, b, **keys)
            page.until(lambda: f"{{{commands} words}}" in " ".join(self.text().split()), f"{commands} are drawn")
            texts.append(self.text())
        self.assertEqual(sorted(self.shapes()), ["Bg1f3", "Yh7a7"])
        page.click("flip")
        page.draw("a1", "h8")
        page.until(lambda: "Ga1h8" in self.text(), "it is drawn on the turned board")
        self.assertEqual(sorted(self.shapes()), ["Bg1f3", "Ga1h8", "Yh7a7"])
        page.click("flip")
        for wanted in reversed(texts):
            page.script("document.getElementById('undo').click()")
            self.assertEqual(self.text(), wanted)
        self.reload()
        self.assertEqual((self.text(), self.shapes()), (texts[0], ["Ge4e5"]))
        # (beside the board nothing is drawn, no menu opens on it, and the left button moves)
        page.script("""
            const square = document.querySelector('[data-square=e4]');
            square.dispatchEvent(new PointerEvent('pointerdown', { button: 2, bubbles: true, cancelable: true }));
            document.body.dispatchEvent(new PointerEvent('pointerup', { button: 2, clientX: 2, clientY: 2, bubbles: true }));
        """)
        self.assertTrue(page.script("const it = new MouseEvent('contextmenu', { bubbles: true, cancelable: true }); document.querySelector('[data-square=e4]').dispatchEvent(it); return it.defaultPrevented"))
        self.assertEqual((self.text(), self.shapes()), (texts[0], ["Ge4e5"]))
        page.drag("e7", "e5")
        page.until(lambda: "e5" in page.moves.split(), "a move is made")
        self.assertEqual(self.shapes(), [])

    def test_arrows_and_circles_are_drawn_by_keys(self):
        page = self.page
        page.script("document.querySelector('[data-square=e2]').focus()")
        self.press("a", blurs=False)
        self.assertIn("an arrow begins here", page.square("e2").get_attribute("aria-label"))
        for _ in range(2):
            self.press("\ue008", "\ue013", blurs=False)
        self.press("a", blurs=False)
        page.until(lambda: "{[%cal Ge2e4]}" in self.text(), "an arrow is in the comment of the start")
        self.press("a", blurs=False)
        self.press("a", blurs=False)
        page.until(lambda: "{[%cal Ge2e4] [%csl Ge4]}" in self.text(), "a circle is there, too")
        self.press("a", blurs=False)
        self.press("\ue00c", blurs=False)
        self.assertNotIn("begins", page.square("e4").get_attribute("aria-label"))

    def test_a_graph_of_the_evaluations_leads_to_the_moves(self):
        page = self.page
        shown = "return document.getElementById('graph').checkVisibility()"
        self.assertFalse(page.script(shown))
        self.given()
        self.assertTrue(page.script(shown))
        self.assertEqual(page.script("return document.getElementById('graph').getAttribute('aria-label')"), "Evaluations of the main line, from +0.2 to #2")
        # (a curve through the four moves of the main line that have an evaluation, and higher where White is better)
        places = page.script("return document.querySelector('#graph .white').getAttribute('d').slice(1, -1).split('L').slice(1, -1).map((it) => it.split(' ').map(Number))")
        self.assertEqual([x for x, _ in places], [1, 2, 4, 5])
        self.assertTrue(places[4 - 1][1] < places[0][1] < 50 < places[1][1] < places[2][1], places)
        for share, wanted in ((0.02, "0"), (0.4, "0.0"), (0.65, "0.0.0.0"), (0.99, "0.0.0.0.0")):
            page.script("const it = document.getElementById('graph'), r = it.getBoundingClientRect(); it.dispatchEvent(new MouseEvent('click', { clientX: r.left + arguments[0] * r.width, clientY: r.top + 5, bubbles: true }))", share)
            page.until(lambda: self.seen()[1] == wanted, f"the click at {share} goes to {wanted}")
            self.assertEqual(page.script("return document.querySelector('#graph .here').getAttribute('d')"), f"M{len(wanted.split('.'))} 0V100")
        # (in a variation it is where that leaves the main line)
        page.script("[...document.querySelectorAll('#moves .move')].find((it) => it.textContent.includes('Bb5')).click()")
        self.assertEqual((self.seen()[1], page.script("return document.querySelector('#graph .here').getAttribute('d')")), ("0.0.0.1.0", "M3 0V100"))
        for _ in range(9):
            page.script("document.getElementById('undo').click()")
        page.script("document.getElementById('new').click()")
        page.until(lambda: not page.script(shown), "a game without evaluations has no graph")

    def bar(self):
        """Whether the evaluation bar is visible, and the number next to the engine."""
        return self.page.script("return [getComputedStyle(document.getElementById('bar')).visibility === 'visible', document.getElementById('value').textContent]")

    def test_the_bar_shows_the_engine_or_the_comment_and_one_row_its_last_depth(self):
        page = self.page
        page.play("e4", "d5", "exd5")
        self.assertEqual(self.bar(), [False, ""])
        page.type("comment", "[%eval 1.5]")
        page.until(lambda: self.bar() == [True, "+1.5"], "the comment's evaluation is shown")
        page.click("back")
        page.until(lambda: self.bar() == [False, ""], "the move before it has none")
        page.choose("depth", "3")
        page.click("analyse")
        page.until(lambda: page.script("return [...document.querySelectorAll('#lines li')].map((it) => it.dataset.depth).join()") == "3,2,1", "three depths are told")
        self.assertEqual(self.bar()[0], True)
        self.assertRegex(self.bar()[1], "^[+\u2212]?[0-9]+[.][0-9]$")
        shown = "return [...document.querySelectorAll('#lines li')].filter((it) => it.checkVisibility()).map((it) => it.dataset.depth).join() + ' ' + document.getElementById('depths').getAttribute('aria-expanded')"
        found = [page.script(shown)]
        for _ in range(2):
            page.click("depths")
            found.append(page.script(shown))
        self.assertEqual(found, ["3 false", "3,2,1 true", "3 false"])
        page.click("analyse")
        page.until(lambda: self.bar() == [False, ""], "without the engine there is no bar")
        # (how the game ended is shown, and a game against the engine has no bar)
        page.paste("1. f3 e5 2. g4 Qh4# 0-1")
        page.until(lambda: "Qh4#" in page.moves, "the game is read")
        page.script("document.getElementById('end').click()")
        page.until(lambda: self.bar() == [True, "0\u20131"], "it ended by mate")
        page.script("document.getElementById('new').click()")
        page.until(lambda: not page.moves, "a game begins")
        page.choose("plays", "b")
        page.type("san", "e4")
        page.until(lambda: len(page.moves.split()) > 2, "the engine has moved")
        self.assertEqual(self.bar(), [False, ""])

    def curves(self):
        """How many evaluations the graph shows of the comments and of the engine, and its words."""
        return self.page.script("""
            const many = (name) => (document.querySelector(`#graph .${name}`)?.getAttribute('d').match(/[ML]/g).length ?? 0);
            const white = many('white');
            return document.getElementById('graph').hidden ? [0, 0, ''] : [white ? white - 2 : 0, many('curve'), document.getElementById('graph').getAttribute('aria-label')];
        """)

    def evaluations(self):
        return self.browser.execute_async_script("""
            const done = arguments[0];
            window.jatshegi.evaluations().then((all) => done(all.map((it) => it && [it.depth, it.text])), (error) => done(String(error)));
        """)

    def of_the_program(self, moves, depth):
        """What the program says of a position at a depth, as the page shows it for White."""
        given = f"position startpos moves {' '.join(moves)}\ngo depth {depth}\n".encode()
        said = test_web.chess("uci", given=given).stdout.decode()
        kind, number = re.findall(rf"^info depth {depth} .*?score (cp|mate) (-?\d+)", said, re.M)[-1]
        value = int(number) * (1 if len(moves) % 2 == 0 else -1)
        sign = "\u2212" if value < 0 else ""
        return f"{sign}#{abs(value)}" if kind == "mate" else f"{sign or ('+' if value > 0 else '')}{abs(value) / 100:.1f}"

    def test_the_engine_s_evaluations_are_beside_those_of_the_comments(self):
        page, moves = self.page, ["e2e4", "e7e5", "f1c4", "b8c6", "d1h5", "g8f6", "h5f7"]
        page.choose("depth", "2")
        self.given("1. e4 {[%eval 0.2]} e5 {[%eval 0.1]} 2. Bc4 Nc6 3. Qh5 {[%eval 0.3]} Nf6 4. Qxf7# *")
        self.assertEqual(self.curves()[:2], [3, 0])
        # of the positions that are visited
        page.script("document.getElementById('analyse').click()")
        for number in range(3):
            page.script("document.getElementById('forward').click()")
            page.until(lambda: (self.evaluations() + [None] * 9)[number] is not None and self.evaluations()[number][0] == 2, f"position {number} is evaluated")
        page.until(lambda: self.curves()[:2] == [3, 3], lambda: f"both are drawn: {self.curves()}")
        page.script("document.getElementById('analyse').click()")
        # of the whole game, of which the last position needs none
        page.script("document.getElementById('analyseall').click()")
        page.until(lambda: page.text("analysed") == "All 7 positions are analysed to depth 2", lambda: page.text("analysed"))
        found = self.evaluations()
        self.assertEqual(found, [[2, self.of_the_program(moves[:i + 1], 2)] for i in range(6)] + [None])
        page.until(lambda: self.curves()[:2] == [3, 6], "the whole line is drawn")
        self.assertEqual(self.curves()[2], f"Evaluations of the main line, in the comments from +0.2 to +0.3, and by the engine from {found[0][1]} to {found[5][1]}")
        self.assertEqual(page.script("return document.getElementById('analyseall').getAttribute('aria-pressed')"), "false")
        # (also in a narrow window, which hides the engine's own lines)
        page.script("document.querySelector('main').style.width = '20rem'; document.querySelector('section.engine').style.display = 'none'")
        self.assertEqual(page.script("return [...document.querySelectorAll('#graph path')].filter((it) => it.matches('.engine') || getComputedStyle(it).display === 'none').length"), 0)
        # another move keeps those of the moves before
        page.script("document.getElementById('end').click()")
        page.script("document.getElementById('delete').click()")
        page.until(lambda: "Qxf7" not in page.moves, "the last move is taken out")
        self.assertEqual(self.evaluations(), found[:6])
        page.until(lambda: self.curves()[:2] == [3, 6], "the line is as before")

    def test_the_run_over_the_game_ends_when_it_is_told(self):
        page = self.page
        page.choose("depth", "16")
        page.play("e4", "e5")
        page.script("document.getElementById('analyseall').click()")
        page.until(lambda: page.script("return document.getElementById('analyseall').getAttribute('aria-pressed')") == "true", "it runs")
        page.until(lambda: page.text("analysed").startswith("Analysed 0 of 3"), lambda: page.text("analysed"))
        # (the board answers meanwhile)
        page.play("Nf3")
        page.script("document.getElementById('analyseall').click()")
        self.assertEqual((page.text("analysed"), page.script("return document.getElementById('analyseall').getAttribute('aria-pressed')")), ("Ended: 0 of 3 positions are analysed", "false"))
        # a game without a comment has the engine's graph alone
        page.choose("depth", "1")
        page.script("document.getElementById('analyseall').click()")
        page.until(lambda: page.text("analysed").startswith("All 4 positions"), lambda: page.text("analysed"))
        page.until(lambda: self.curves()[:2] == [0, 3], lambda: f"it is drawn: {self.curves()}")

    def diagrams(self):
        return self.page.script("return [...document.querySelectorAll('#moves .diagram')].map((it) => [it.dataset.fen ?? '', it.querySelectorAll('.man').length])")

    def test_diagrams_are_asked_for_by_comments(self):
        page = self.page
        start, first, second = "rnbqkbnr/pppppppp/8/8/8/8/PPPPPPPP/RNBQKBNR w KQkq - 0 1", "rnbqkbnr/pppppppp/8/8/4P3/8/PPPP1PPP/RNBQKBNR b KQkq e3 0 1", "rnbqkbnr/pp1ppppp/8/2p5/4P3/8/PPPP1PPP/RNBQKBNR w KQkq c6 0 2"
        self.given("{[#] begun} 1. e4 {[#] good} d5 (1... c5 {[%csl Ge4] [#]}) 2. exd5 *")
        page.until(lambda: self.diagrams() == [[start, 32], [first, 32], [second, 32]], lambda: f"three are drawn: {self.diagrams()}")
        self.assertNotIn("[#]", page.moves)
        # a chosen move gets one, and loses it
        self.at(["end"])
        had = self.text()
        page.script("document.getElementById('diagram').click()")
        page.until(lambda: len(self.diagrams()) == 4 and self.diagrams()[3] == ["rnbqkbnr/ppp1pppp/8/3P4/8/8/PPPP1PPP/RNBQKBNR b KQkq - 0 2", 31], lambda: f"four are drawn: {self.diagrams()}")
        self.assertIn("2. exd5 {[#]} *", " ".join(self.text().split()))
        # it stays when the words change
        page.type("comment", "taken")
        self.assertIn("2. exd5 {[#] taken} *", " ".join(self.text().split()))
        self.assertEqual((self.box(), len(self.diagrams())), ("taken", 4))
        page.type("comment", " ")
        page.script("document.getElementById('diagram').click()")
        self.assertEqual(self.text(), had)
        page.until(lambda: len(self.diagrams()) == 3, "three are left")
        page.script("document.getElementById('undo').click()")
        page.until(lambda: len(self.diagrams()) == 4, "undo brings it back")
        # the same moves from another position have other diagrams
        page.paste(f'[FEN "{start.replace("RNBQKBNR", "RNBQK2R")}"]\n\n' + "{[#] begun} 1. e4 {[#] good} d5 (1... c5 {[%csl Ge4] [#]}) 2. exd5 *")
        page.until(lambda: [it[1] for it in self.diagrams()] == [30] * 3, lambda: f"they are drawn anew: {self.diagrams()}")

    def wheel(self, far, **more):
        return self.page.script("""
            const it = new WheelEvent('wheel', { deltaY: arguments[0], bubbles: true, cancelable: true, ...arguments[1] });
            document.querySelector('[data-square=e4]').dispatchEvent(it);
            return it.defaultPrevented;
        """, far, more)

    def test_the_wheel_on_the_board_steps(self):
        page = self.page
        self.given()
        self.at([])
        for turns, wanted in (([100], "0"), ([120, 120], "0.0.0"), ([-100], "0.0"), ([20, 20], "0.0"), ([30], "0.0.0"), ([-10], "0.0.0"), ([59], "0.0.0"), ([-59], "0.0.0"), ([-1], "0.0"), ([-100] * 3, "-")):
            for far in turns:
                self.assertTrue(self.wheel(far))
            self.assertEqual(self.seen()[1], wanted, turns)
        # (a line of the wheel is some pixels; with Ctrl the page is shown larger)
        self.assertTrue(self.wheel(3, deltaMode=1))
        self.assertEqual(self.seen()[1], "0")
        self.assertFalse(self.wheel(100, ctrlKey=True))
        # (a page that scrolls does so)
        page.script("document.body.style.height = '300vh'")
        self.assertFalse(self.wheel(100))
        self.assertEqual(self.seen()[1], "0")

    def test_the_keys_are_shown(self):
        page = self.page
        shown = "return document.getElementById('keysbox').open"
        self.press("\ue008", "?")
        self.assertTrue(page.script(shown))
        words = page.text("keysbox")
        for word in ("Alt", "Home", "F", "L", "/", "Ctrl", "Enter", "Escape", "A", "Right button", "?"):
            self.assertIn(word, words)
        self.press("\ue00c")
        self.assertFalse(page.script(shown))
        page.type("comment", "why?", then="")
        self.assertFalse(page.script(shown))
        page.at("comment").send_keys("\ue00c")
        page.click("menukeys")
        self.assertTrue(page.script(shown))

    def test_commands_are_put_in_and_taken_out_alone(self):
        self.assertEqual(self.browser.execute_async_script("""
            const done = arguments[0];
            import('./commands.js').then(({ joined, shapes, split, toggled }) => {
              const bad = [];
              const parts = ['[%clk 0:01:02]', 'words', '[%cal Ge2e4]', '[%csl Rd5, Gd4 ,Zh1]', '[%', ']', '[%x]', '[%eval 1.0', 'a  b', '[%CAL Ba1a2]', '[%cal odd,,Gd2]', '%', '[%csl ]'];
              let seed = 7;
              const below = (n) => { seed = (seed * 1103515245 + 12345) % 2147483648; return (seed >> 8) % n; };
              for (let i = 0; i < 3000; i++) {
                const comment = Array.from({ length: below(6) }, () => parts[below(parts.length)]).join(' ');
                const { commands, words } = split(comment);
                const again = split(joined(commands, words));
                if (JSON.stringify(again) !== JSON.stringify({ commands, words }) && !/\\[%/.test(words)) bad.push(['again', comment]);
                const item = ['Ge2e4', 'Rd5', 'Ga1', 'Rd4'][below(4)];
                const named = (all) => shapes(all).map(({ colour, from, to }) => colour + from + (to === from ? '' : to)).sort().join(' ');
                const others = (all) => named(all).split(' ').filter((it) => it && it.slice(1) !== item.slice(1)).join(' ');
                const once = toggled(commands, item);
                if (others(once) !== others(commands)) bad.push(['others', comment, item]);
                if (named(once).split(' ').includes(item) === named(commands).split(' ').includes(item)) bad.push(['not toggled', comment, item]);
                const rest = (all) => all.filter(({ name }) => name !== 'cal' && name !== 'csl').map(({ text }) => text).join();
                if (rest(once) !== rest(commands)) bad.push(['other commands', comment, item]);
              }
              done(bad.slice(0, 3));
            }).catch((error) => done(String(error)));
        """), [])


class InChromium(Games, unittest.TestCase):
    @staticmethod
    def new(folder):
        return test_web.new_browser(folder)

    def test_a_print_has_the_names_a_diagram_and_all_moves(self):
        page = self.page
        knights = "Nf3 Nf6 Ng1 Ng8 " * 30
        self.given(f'[White "A"]\n[Black "B"]\n[Result "1-0"]\n\n1. e4 {{good [#]}} e5 (1... c5 {{[%eval 0.2] [#]}}) {knights}1-0')
        page.until(lambda: [it[1] for it in self.diagrams()] == [32] * 2, "the diagrams are drawn")
        self.assertEqual(page.script("return [...document.querySelectorAll('.spot')].filter((it) => it.checkVisibility()).length"), 0)
        page.script("window.printed = 0; window.print = () => { window.printed++; }; document.documentElement.dataset.theme = 'dark'")
        page.click("print")
        page.until(lambda: page.script("return window.printed") == 1, "it is printed")
        page.squares("e2")
        self.browser.execute_cdp_cmd("Emulation.setEmulatedMedia", {"media": "print"})
        try:
            seen = page.script("""
                const of = (id) => document.getElementById(id);
                const box = of('moves');
                const moves = [...document.querySelectorAll('.move')];
                const { top, bottom } = box.getBoundingClientRect();
                return {
                    shown: ['player1', 'player2', 'board', 'moves', 'status', 'top', 'bar', 'graph', 'san', 'comment', 'menubutton', 'find'].filter((id) => of(id).checkVisibility()),
                    isWhole: box.scrollHeight <= box.clientHeight + 1 && moves.every((it) => it.getBoundingClientRect().top >= top - 1 && it.getBoundingClientRect().bottom <= bottom + 8),
                    diagrams: [...document.querySelectorAll('.diagram')].map((it) => {
                      const { width, height } = it.getBoundingClientRect();
                      const spots = [...it.children].map((spot) => spot.getBoundingClientRect());
                      return [Math.abs(width - height) < 3, width > 200, spots.filter(({ width, height }) => width > 20 && Math.abs(width - height) < 1).length, it.querySelectorAll('.man').length];
                    }),
                    many: moves.length, page: getComputedStyle(document.body).backgroundColor, ink: getComputedStyle(moves[0]).color,
                    square: [...document.querySelectorAll('#board .square')].every((it) => getComputedStyle(it).boxShadow === 'none'), wide: document.getElementById('board').offsetWidth,
                };
            """)
        finally:
            self.browser.execute_cdp_cmd("Emulation.setEmulatedMedia", {"media": ""})
        self.assertEqual(seen.pop("wide") // 10, 34)
        self.assertEqual(seen, {"shown": ["player1", "player2", "board", "moves", "status"], "isWhole": True, "diagrams": [[True, True, 64, 32]] * 2, "many": 123, "page": "rgb(255, 255, 255)", "ink": "rgb(0, 0, 0)", "square": True})

    def test_the_page_can_be_installed(self):
        with open(f"{test_web.WEB}/index.html", encoding="utf-8") as file:
            head = file.read()
        with open(f"{test_web.WEB}/offline.js", encoding="utf-8") as file:
            kept = re.findall(r"^  '(.+)': 'sha256", file.read(), re.M)
        with open(f"{test_web.WEB}/manifest.json", encoding="utf-8") as file:
            words = json.load(file)
        self.assertIn('<link rel="manifest" href="manifest.json">', head)
        self.assertIn('<link rel="apple-touch-icon" href="icon-180.png">', head)
        sizes = {it["src"]: it["sizes"] for it in words["icons"]} | {"icon-180.png": "180x180"}
        for name, size in sizes.items():
            self.assertIn(name, kept)
            if name.endswith(".png"):
                with open(f"{test_web.WEB}/{name}", "rb") as file:
                    self.assertEqual("x".join(map(str, struct.unpack(">8x4x4xII", file.read(24)))), size)
        self.assertIn("manifest.json", kept)
        # (the browser finds no fault with it)
        found = self.browser.execute_cdp_cmd("Page.getAppManifest", {})
        self.assertTrue(found["url"].endswith("/manifest.json"))
        self.assertEqual(found["errors"], [])
        self.assertEqual(self.browser.execute_cdp_cmd("Page.getInstallabilityErrors", {})["installabilityErrors"], [])

    def right_drag(self, a, b):
        from selenium.webdriver.common.actions.action_builder import ActionBuilder
        from selenium.webdriver.common.actions.mouse_button import MouseButton
        actions = ActionBuilder(self.browser)
        actions.pointer_action.move_to(self.page.square(a)).pointer_down(button=MouseButton.RIGHT).move_to(self.page.square(b)).pointer_up(button=MouseButton.RIGHT)
        actions.perform()


@unittest.skipUnless(shutil.which("firefox-esr"), "the package firefox-esr is missing")
class InFirefox(Games, unittest.TestCase):
    @staticmethod
    def new(folder):
        return firefox.Firefox(folder)

    def right_drag(self, a, b):
        self.browser.drag(self.page.square(a), self.page.square(b), button=2)


if __name__ == "__main__":
    unittest.main()

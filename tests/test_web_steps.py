"""A step asks the module for what is new alone, a change for the game's text once, and the list of moves is drawn anew only where it is another."""
import random
import shutil
import subprocess
import tempfile
import unittest

import firefox
import runs
import test_web
from test_web_keeping import Browsing

setUpModule, tearDownModule = test_web.setUpModule, test_web.tearDownModule

# In the place of the page's worker: it counts how often each function of the module is called, and each state has the counts, and whether the game's text
# came with it.
COUNTING = """
const asked = {};
const { Instance } = WebAssembly;
WebAssembly.Instance = function (...given) {
  const { exports } = new Instance(...given);
  const counted = (name, it) => (...words) => {
    asked[name] = (asked[name] ?? 0) + 1;
    return it(...words);
  };
  return { exports: Object.fromEntries(Object.entries(exports).map(([name, it]) => [name, typeof it === 'function' ? counted(name, it) : it])) };
};
const post = globalThis.postMessage.bind(globalThis);
globalThis.postMessage = (data) => {
  const state = data.result?.state;
  post(state ? { ...data, result: { ...data.result, state: { ...state, asked: { ...asked, hasText: 'pgn' in state } } } } : data);
};
"""
DONE = """
const done = arguments[arguments.length - 1];
const { game, exported, settled } = window.jatshegi;
settled().then(exported).then((text) => done([game.state.asked, text, game.state.path]), (error) => done(String(error)));
"""
# The list of moves, but for where the cursor is, and the paths of its moves.
LIST = """
const all = document.getElementById('moves').cloneNode(true);
for (const it of all.querySelectorAll('.move')) {
  it.removeAttribute('tabindex');
  it.removeAttribute('aria-current');
}
return [all.innerHTML, [...document.querySelectorAll('.move')].map((it) => window.jatshegi.pathAt(it))];
"""
SHUFFLE = "Nf3 Nf6 Ng1 Ng8 " * 50
GAME = f"{{at first}} 1. e4 e5 (1... c5 {{the Sicilian}} 2. Nf3 (2. c3 d5) 2... d6) {SHUFFLE} 1-0"
PLIES = 2 + 200


def counting(folder):
    """A copy of the page whose worker counts."""
    shutil.copytree(test_web.WEB, f"{folder}/web")
    shutil.move(f"{folder}/web/worker.js", f"{folder}/web/whole.js")
    for name, text in (("counting.js", COUNTING), ("worker.js", "import './counting.js';\nimport './whole.js';\n")):
        with open(f"{folder}/web/{name}", "w", encoding="utf-8") as file:
            file.write(text)
    subprocess.run([f"{runs.TOP}/tools/offline", f"{folder}/web"], check=True)
    return f"{folder}/web"


class Stepping(Browsing):
    """The tests, for each browser."""

    @classmethod
    def setUpClass(cls):
        super().setUpClass()
        cls.copy = tempfile.mkdtemp()
        cls.server = test_web.serve(counting(cls.copy))
        cls.page = test_web.Page(cls.browser, cls.server)

    @classmethod
    def tearDownClass(cls):
        super().tearDownClass()
        test_web.stop(cls.server)
        shutil.rmtree(cls.copy, ignore_errors=True)

    def read(self):
        self.page.paste(GAME)
        self.page.until(lambda: self.page.script("return document.querySelectorAll('.move').length") == PLIES + 5, "the game is read")

    def done(self):
        found = self.browser.execute_async_script(DONE)
        self.assertIsInstance(found, list, found)
        return found

    def submit(self, name, text):
        self.page.script("""
            const it = document.getElementById(arguments[0]);
            it.value = arguments[1];
            it.dispatchEvent(new Event('input'));
            document.getElementById(`${arguments[0]}form`).requestSubmit();
        """, name, text)

    def unseen(self):
        """How many moves of the list were drawn since this was asked last."""
        return self.page.script("return [...document.querySelectorAll('.move')].filter((it) => !it.isSeen).map((it) => { it.isSeen = true; }).length")

    def test_a_step_asks_for_what_is_new_alone(self):
        page = self.page
        self.read()
        before, text, path = self.done()
        self.assertEqual((self.unseen(), path), (PLIES + 5, "-"))
        end = ".".join(["0"] * PLIES)
        go = "document.getElementById(arguments[0]).click()"
        move = "[...document.querySelectorAll('.move')].find((it) => window.jatshegi.pathAt(it) === arguments[0]).click()"
        begin = [(go, "forward", "0"), (go, "forward", "0.0"), (go, "back", "0"), (move, "0.1.1", "0.1.1"), (go, "forward", "0.1.1.0"), (go, "end", "0.1.1.0")]
        for script, word, wanted in [*begin, (go, "start", "-"), (move, end, end), (go, "back", end[:-2]), (go, "back", end[:-4]), (go, "forward", end[:-2])]:
            page.script(script, word)
            after, now, path = self.done()
            self.assertEqual((now, path), (text, wanted))
            for name in ("jatshegi_board_pgn", "jatshegi_board_load", "jatshegi_game_read", "jatshegi_game_report"):
                self.assertEqual(after.get(name), before.get(name), (word, name))
            self.assertEqual((after["hasText"], self.unseen()), (False, 0), word)
            # a question for each legal move, and a limited number beside, however long the game is; and one line more than the step
            self.assertLess(sum(after.values()) - sum(before.values()), 100, word)
            self.assertEqual(after["jatshegi_board_answer"] - before["jatshegi_board_answer"], 2, word)
            before = after

    def test_a_change_asks_once_and_draws_its_part_of_the_list(self):
        page = self.page
        self.read()
        page.click("end")
        before, _, _ = self.done()
        self.unseen()
        for word, change in (("Nc3", ("type", "san", "Nc3")), ("Nc3 $1", ("choose", "nag", "1")), ("{so it ends}", ("type", "comment", "so it ends"))):
            getattr(page, change[0])(*change[1:])
            page.until(lambda: self.done()[0]["jatshegi_board_pgn"] > before["jatshegi_board_pgn"], "the text is asked for")
            after, text, _ = self.done()
            self.assertEqual(after["jatshegi_board_pgn"] - before["jatshegi_board_pgn"], 1)
            self.assertIn(word, " ".join(text.split()))
            drawn = self.unseen()
            self.assertTrue(0 < drawn < PLIES / 2, drawn)
            before = after

    def test_the_list_is_as_if_drawn_from_nothing(self):
        """Random changes of a long game with variations: the list of moves, and where its moves lead, are those of the page that is opened anew."""
        page, rng = self.page, random.Random(4000)
        self.read()
        for number in range(36):
            what = rng.choice(["play", "play", "comment", "nag", "promote", "delete", "undo", "undo", "redo"])
            moves = page.script("return document.querySelectorAll('.move').length")
            page.script("document.querySelectorAll('.move')[arguments[0]]?.click()", rng.randrange(max(1, moves)))
            self.done()
            if what == "play":
                self.submit("san", rng.choice(page.script("return window.jatshegi.game.state.moves")))
            elif what == "comment":
                self.submit("comment", rng.choice(["", "so", f"a word {number}"]))
            elif what == "nag":
                page.choose("nag", "5")
            else:
                page.script("document.getElementById(arguments[0]).click()", what)
            _, text, path = self.done()
            if number % 4 == 3:
                had = page.script(LIST)
                self.reload()
                self.assertEqual((page.script(LIST), self.done()[1:]), (had, [text, path]), what)


class InChromium(Stepping, unittest.TestCase):
    @staticmethod
    def new(folder):
        return test_web.new_browser(folder)


@unittest.skipUnless(shutil.which("firefox-esr"), "the package firefox-esr is missing")
class InFirefox(Stepping, unittest.TestCase):
    @staticmethod
    def new(folder):
        return firefox.Firefox(folder)


if __name__ == "__main__":
    unittest.main()

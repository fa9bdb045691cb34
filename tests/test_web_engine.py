"""The engine on the page is stopped at once, also in the middle of a slice, and what it then answers is the machine's."""
import shutil
import tempfile
import unittest

import firefox
import test_web

setUpModule, tearDownModule = test_web.setUpModule, test_web.tearDownModule

# Workers that hear no `stop`, as one in the middle of a slice that never ends.
DEAF = """
    const Own = window.Worker;
    window.unheard = 0;
    window.Worker = class extends Own {
      postMessage(data) {
        if (data.line === 'stop') window.unheard++;
        else super.postMessage(data);
      }
    };
"""
TOLD = "return [...document.querySelectorAll('#lines li')].map((it) => [Number(it.dataset.depth), it.dataset.move])"


def best(fen, depth):
    """The machine's best move at that depth, by the program."""
    told = test_web.chess("uci", given=f"position fen {fen}\ngo depth {depth}\n".encode()).stdout.decode()
    return [line.split()[-1] for line in told.splitlines() if line.startswith(f"info depth {depth} ")]


class Stopping:
    def setUp(self):
        self.folder = tempfile.mkdtemp()
        self.addCleanup(shutil.rmtree, self.folder, ignore_errors=True)
        self.browser = self.new()
        self.addCleanup(self.browser.quit)
        self.page = test_web.Page(self.browser)
        self.page.open()
        self.page.script(DEAF)
        self.page.choose("depth", "16")

    def until_depth(self, depth):
        self.page.until(lambda: [it for it in self.page.script(TOLD) if it[0] >= depth], f"depth {depth} is told")

    def test_another_position_is_searched_though_no_worker_hears(self):
        page = self.page
        page.click("analyse")
        self.until_depth(2)
        for number, move in enumerate(("e4", "e5", "Nf3"), 1):
            page.play(move)
            self.until_depth(2)
            depth, found = page.script(TOLD)[-1]
            self.assertEqual((depth, [found]), (1, best(page.fen, 1)))
            self.assertGreaterEqual(page.script("return unheard"), number)
        stopped = page.script("document.getElementById('analyse').click(); return [document.getElementById('thinking').textContent, Number(document.querySelector('#lines li').dataset.depth), document.querySelector('#lines li').dataset.move]")
        self.assertEqual(stopped[0], f"Stopped at depth {stopped[1]}")
        self.assertEqual([stopped[2]], best(page.fen, stopped[1]))

    def test_it_moves_at_once(self):
        page = self.page
        page.choose("plays", "b")
        page.play("e4")
        self.until_depth(2)
        had, depth, move = page.script("document.getElementById('now').click(); const it = document.querySelector('#lines li').dataset; return [document.getElementById('fen').value, Number(it.depth), it.move]")
        page.until(lambda: page.fen.split()[1] == "w", "it has moved")
        self.assertEqual([move], best(had, depth))
        self.assertEqual(page.script("return document.querySelectorAll('.square.last')[0].dataset.square") in (move[:2], move[2:4]), True)
        # to go back, and there, asks for no reply; a move does
        page.script("document.getElementById('back').click()")
        page.until(lambda: page.fen.split()[1] == "b", "one move is taken back")
        self.assertFalse(page.at("now").is_displayed())
        self.assertEqual(page.script("return document.querySelectorAll('.move').length"), 2)


class InChromium(Stopping, unittest.TestCase):
    def new(self):
        return test_web.new_browser(self.folder)


@unittest.skipUnless(shutil.which("firefox-esr"), "the package firefox-esr is missing")
class InFirefox(Stopping, unittest.TestCase):
    def new(self):
        return firefox.Firefox(self.folder)


if __name__ == "__main__":
    unittest.main()

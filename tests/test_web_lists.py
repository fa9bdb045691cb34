"""The list of a file's games: its order by a column, the keys that go through it, and its place, with thousands of games."""
import shutil
import tempfile
import unittest

import firefox
import test_web
from test_web_keeping import Browsing

setUpModule, tearDownModule = test_web.setUpModule, test_web.tearDownModule

# By number: White, Black, the event, the date and the result; the fourth can't be read.
ROWS = [("Zoe", "Ann", "Cup", "2024.05.01", "1-0"), ("anton", "Bo", "", "2023.??.??", "0-1"), ("Émile", "Bo", "Open 10", "????.??.??", "*"), None, ("Anton", "Al", "Open 9", "2024.04.30", "1/2-1/2")]
GAMES = "".join(
    '[White "Bad"]\n\n1. e5 *\n\n' if row is None else "".join(f'[{name} "{value}"]\n' for name, value in zip(("White", "Black", "Event", "Date", "Result"), row) if value) + f"\n1. e4 {row[4]}\n\n"
    for row in ROWS
)
# The rows that are in sight, by their numbers; and of the last one whether it is wholly there.
SEEN = """
    const list = document.getElementById('games');
    const { top, bottom } = list.getBoundingClientRect();
    const number = (it) => Number.parseInt(it.textContent, 10);
    const parts = [...list.children].filter((it) => { const r = it.getBoundingClientRect(); return r.bottom >= top && r.top <= bottom; });
    const inside = parts.flatMap((it) => [...it.children]).filter((it) => { const r = it.getBoundingClientRect(); return r.top >= top - 1 && r.bottom <= bottom + 1; });
    return [inside.map(number), list.querySelectorAll('li').length, list.scrollTop];
"""


class Listing(Browsing):
    def numbers(self):
        return self.page.script("return [...document.querySelectorAll('#games li')].map((it) => Number.parseInt(it.textContent, 10))")

    def heads(self):
        return self.page.script("return [...document.querySelectorAll('#columns [role=columnheader]')].map((it) => it.getAttribute('aria-sort'))")

    def head(self, name):
        self.page.script("document.querySelector(`[data-column=${arguments[0]}] button`).click()", name)

    def give(self, text, name="games.pgn"):
        with tempfile.TemporaryDirectory(dir=self.folder) as folder:
            with open(f"{folder}/{name}", "w", encoding="utf-8") as file:
                file.write(text)
            self.page.script("document.getElementById('howmany').textContent = ''")
            self.page.at("file").send_keys(f"{folder}/{name}")
            self.page.until(lambda: self.page.text("howmany").startswith(f"{text.count('[White') - text.count('Bad')} games"), "the games are listed")

    def test_a_column_sorts_the_list_and_back(self):
        page = self.page
        self.give(GAMES)
        page.until_moves("1. e4")
        self.assertEqual((self.numbers(), self.heads()), ([1, 2, 3, 4, 5], ["none"] * 4))
        # (a game that names nothing there, and one that can't be read, are after all others)
        for name, up, down in (("players", [5, 2, 3, 1, 4], [1, 3, 2, 5, 4]), ("event", [1, 5, 3, 2, 4], [3, 5, 1, 2, 4]), ("date", [2, 5, 1, 3, 4], [1, 5, 2, 3, 4]), ("result", [2, 1, 5, 3, 4], [5, 1, 2, 3, 4])):
            found = []
            for _ in range(3):
                self.head(name)
                found.append((self.numbers(), [it for it in self.heads() if it != "none"]))
            self.assertEqual(found, [(up, ["ascending"]), (down, ["descending"]), ([1, 2, 3, 4, 5], [])], name)
        # the row of the game on the board is marked in each order, and a row opens its game
        self.head("players")
        current = "return Number.parseInt(document.querySelector('#games [aria-current]')?.textContent ?? '', 10)"
        self.assertEqual(page.script(current), 1)
        page.script("document.querySelectorAll('#games li')[1].click()")
        page.until(lambda: page.script(current) == 2, "the second game is on the board")
        self.assertEqual((page.script("return window.jatshegi.game.state.tags.White"), self.numbers()), ("anton", [5, 2, 3, 1, 4]))
        # it is searched in its order
        page.type("find", "bo", then="")
        page.until(lambda: self.numbers() == [2, 3], "two are found")
        page.type("find", " ", then="\ue003")
        page.until(lambda: self.numbers() == [5, 2, 3, 1, 4], "all are there")
        # another text comes in its own order
        self.give(GAMES.replace("Zoe", "Yan"), "others.pgn")
        self.assertEqual((self.numbers(), self.heads()), ([1, 2, 3, 4, 5], ["none"] * 4))

    def test_keys_sort_and_go_through_the_list(self):
        page = self.page
        self.give(GAMES)
        here = "return document.activeElement.closest('#columns, #games')?.id + ' ' + Number.parseInt(document.activeElement.closest('li')?.textContent ?? '0', 10)"
        page.script("document.querySelector('[data-column=date] button').focus()")
        self.press("\ue007", blurs=False)
        self.assertEqual((self.heads(), self.numbers()), (["none", "none", "none", "ascending"], [2, 5, 1, 3, 4]))
        # the list is one stop of the Tab key
        self.press("\ue004", blurs=False)
        self.assertEqual(page.script(here), "games 2")
        for key, number in (("\ue015", 5), ("\ue015", 1), ("\ue010", 4), ("\ue013", 3), ("\ue011", 2), ("\ue00f", 4), ("\ue00e", 2), ("\ue013", 2), ("\ue015", 5)):
            self.press(key, blurs=False)
            self.assertEqual(page.script(here), f"games {number}", key)
        self.assertEqual(page.script("return document.querySelectorAll('#games button:not([tabindex=\"-1\"])').length"), 1)
        self.press("\ue007", blurs=False)
        page.until(lambda: page.script("return window.jatshegi.game.state.tags.White") == "Anton", "it is opened")
        # (the keys of the list don't step through the game)
        self.assertEqual((self.seen()[1], page.script(here)), ("-", "games 5"))

    def test_thousands_of_games_are_reached_and_the_list_stays_in_its_place(self):
        page, many = self.page, 6000
        self.give("".join(f'[White "W{i * 7919 % many}"]\n[Date "2024.01.01"]\n\n1. {"d4" if i % 2 else "e4"} *\n\n' for i in range(1, many + 1)))
        self.assertEqual(page.script(SEEN)[1], many)
        page.script("document.querySelector('#games button').focus()")
        self.press("\ue010", blurs=False)
        page.until(lambda: many in page.script(SEEN)[0], lambda: f"the last game is in sight: {page.script(SEEN)}")
        page.script("document.getElementById('games').scrollTop = 0")
        page.until(lambda: 1 in page.script(SEEN)[0], "the first one is")
        page.script("document.getElementById('games').scrollTop = 1e9")
        page.until(lambda: many in page.script(SEEN)[0], "the last one is again")
        # in the middle a game is opened, and played on; then the page is opened anew
        self.head("players")
        self.assertEqual(page.script(SEEN)[2], 0)
        page.script("document.getElementById('games').scrollTop = 40000")
        page.until(lambda: len(page.script(SEEN)[0]) > 1 and page.script(SEEN)[2] > 30000, "the middle is in sight")
        before = page.script(SEEN)
        page.script("document.querySelectorAll('#games li')[arguments[0]].click()", self.numbers().index(before[0][1]))
        page.until(lambda: page.script("return Number.parseInt(document.querySelector('#games [aria-current]')?.textContent ?? '', 10)") == before[0][1], "it is on the board")
        page.play("c4")
        self.assertEqual(page.script(SEEN)[0], before[0])
        self.reload()
        page.until(lambda: page.text("howmany") == f"{many} games", "the games are listed again")
        page.until(lambda: page.script(SEEN)[0] == before[0], lambda: f"the list is in its place: {page.script(SEEN)}, not {before}")
        self.assertEqual(self.heads(), ["ascending", "none", "none", "none"])


class InChromium(Listing, unittest.TestCase):
    @staticmethod
    def new(folder):
        return test_web.new_browser(folder)


@unittest.skipUnless(shutil.which("firefox-esr"), "the package firefox-esr is missing")
class InFirefox(Listing, unittest.TestCase):
    @staticmethod
    def new(folder):
        return firefox.Firefox(folder)


if __name__ == "__main__":
    unittest.main()

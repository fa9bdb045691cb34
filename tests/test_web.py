"""The page in a browser, and its module beside the program: the same bytes.

Needs Debian's chromium, chromium-driver, python3-selenium and firefox-esr; where they are missing and can't be installed, these tests are skipped. With the word
`pictures` (python3 -m tests.test_web pictures, from tests/: python3 test_web.py pictures) the screenshots of docs/ are made anew.
"""
import contextlib
import functools
import hashlib
import http.server
import importlib
import os
import queue
import random
import re
import shutil
import socket
import subprocess
import sys
import tempfile
import threading
import time
import unittest

import runs

WEB = f"{runs.TOP}/web"
CHESS = f"{runs.TOP}/release/x86_64-linux/bin/chess"
PACKAGES = ["chromium", "chromium-driver", "python3-selenium"]
MARKERS = ["*", "1-0", "0-1", "1/2-1/2"]
# So long a wait is for what never comes; what comes is seen at once.
PATIENCE = int(os.environ.get("PATIENCE", 300))

# What a script in the page does with the package's modules, `it`, and a memory of its own.
WITH_MODULE = """
const [...words] = arguments;
const done = words.pop();
const names = ['boards', 'bytes', 'compile', 'games', 'memory'];
Promise.all(names.map((name) => import(`./jatshegi/src/${name}.js`))).then(async (all) => {
  const it = Object.assign({}, ...all);
  const module = await it.compiled('jatshegi.wasm');
  const memory = new it.Memory(module);
  const MOST = 64 << 20;
  // (a board's answer to a line, as the program writes it)
  const said = (session, line) => {
    const answer = session.line(it.toBytes(line));
    return answer ? `${answer}\\n` : '';
  };
  const text = (bytes) => it.fromBytes(bytes);
  const game = (session, bytes) => session.game(...memory.put(bytes).map(Number));
  BODY
}).catch((error) => done('error: ' + error));
"""


def found_selenium():
    """Whether selenium can be read, also where Debian keeps it and another Python runs."""
    try:
        import selenium  # noqa: F401
        return True
    except ImportError:
        sys.path.append("/usr/lib/python3/dist-packages")
    try:
        import selenium  # noqa: F401,F811
        return True
    except ImportError:
        return False


def has_browser():
    return bool(shutil.which("chromium") and shutil.which("chromedriver")) and found_selenium()


class Handler(http.server.SimpleHTTPRequestHandler):
    def log_message(self, *words):
        pass


def wants_browser():
    runs.install(has_browser, *PACKAGES, "firefox-esr")
    if not has_browser():
        raise unittest.SkipTest(f"these packages are missing: {' '.join(PACKAGES)}")


class Server(http.server.ThreadingHTTPServer):
    # (a page asks for all of its modules at once)
    request_queue_size = 128


def serve(folder, handler=Handler, port=0):
    """Serves the folder to this machine, and returns the server, which `stop` ends."""
    it = Server(("127.0.0.1", port), functools.partial(handler, directory=folder))
    threading.Thread(target=it.serve_forever, daemon=True).start()
    return it


@contextlib.contextmanager
def port_held(port):
    """Keeps a port for a server that is to come back there, from one that was stopped: meanwhile a connection is refused, and no other program is given the port."""
    with socket.socket() as it:
        it.setsockopt(socket.SOL_SOCKET, socket.SO_REUSEADDR, 1)
        it.bind(("127.0.0.1", port))
        yield


def stop(it):
    it.shutdown()
    it.server_close()


def setUpModule():
    if not os.path.exists(f"{WEB}/jatshegi.wasm"):
        raise unittest.SkipTest("web/jatshegi.wasm is not there: make it with tools/web")
    wants_browser()
    global server
    server = serve(WEB)


def tearDownModule():
    if "server" in globals():
        stop(server)


def new_browser(folder, *more):
    from selenium import webdriver
    from selenium.webdriver.chrome.service import Service
    options = webdriver.ChromeOptions()
    for word in ("--headless=new", "--no-sandbox", "--disable-gpu", "--disable-dev-shm-usage", "--window-size=1200,950", "--force-prefers-reduced-motion", *more):
        options.add_argument(word)
    options.add_experimental_option("prefs", {"download.default_directory": folder, "download.prompt_for_download": False})
    options.set_capability("goog:loggingPrefs", {"browser": "ALL"})
    options.binary_location = shutil.which("chromium")
    browser = webdriver.Chrome(service=Service(shutil.which("chromedriver")), options=options)
    browser.set_script_timeout(PATIENCE)
    return browser


def chess(*words, given):
    return subprocess.run([CHESS, *words], input=given, capture_output=True, timeout=runs.MOST_SECONDS)


def library():
    """The Python package, whose board and games are those of the library for C."""
    sys.path.insert(0, f"{runs.TOP}/python")
    try:
        return importlib.import_module("jatshegi")
    finally:
        sys.path.remove(f"{runs.TOP}/python")


class Page:
    """A page and what a person does with it: that of the clone, or that of another server."""

    def __init__(self, browser, of=None):
        self.browser = browser
        self.port = (of or server).server_port

    def forget(self):
        """Takes out all that the browser keeps of the page."""
        self.browser.get(f"http://127.0.0.1:{self.port}/about.html")
        said = self.browser.execute_async_script("""
            const done = arguments[0];
            sessionStorage.clear();
            localStorage.clear();
            const it = indexedDB.deleteDatabase('jatshegi');
            it.onsuccess = () => done('');
            it.onerror = () => done(String(it.error));
        """)
        assert said == "", said

    def open(self, fragment="", keeps=False):
        """Opens the page, in a browser that knows nothing of it but where it `keeps` what was there. What is being kept is waited for."""
        self.until(lambda: self.script("return document.documentElement.dataset.kept") != "no", "all is kept")
        self.browser.get("about:blank")
        if not keeps:
            self.forget()
        self.browser.get(f"http://127.0.0.1:{self.port}/{fragment}")
        # (a new version that takes over loads the page anew, also while it is asked)
        self.until(lambda: self.tried(lambda: self.script("return document.documentElement.dataset.ready")) == "yes", "the page is ready")

    def script(self, text, *words):
        return self.browser.execute_script(text, *words)

    def tried(self, asks):
        """What is answered; none while the page is loaded anew, which a driver may report as an error."""
        from selenium.common.exceptions import WebDriverException
        try:
            return asks()
        except (WebDriverException, AssertionError):
            return None

    def until(self, holds, what):
        end = time.monotonic() + PATIENCE
        while not holds():
            if time.monotonic() > end:
                raise AssertionError(f"never: {what() if callable(what) else what}; moves '{self.moves}', status '{self.text('status')}', told '{self.text('told')}'")
            time.sleep(0.02)

    def at(self, name):
        from selenium.webdriver.common.by import By
        return self.browser.find_element(By.ID, name)

    def square(self, name):
        return self.found(f"[data-square={name}]")

    def found(self, selector):
        return self.browser.find_element("css selector", selector)

    def text(self, name):
        return self.script("return document.getElementById(arguments[0]).textContent", name).strip()

    @property
    def moves(self):
        return " ".join(self.text("moves").split())

    @property
    def fen(self):
        return self.script("return document.getElementById('fen').value")

    def until_moves(self, wanted):
        self.until(lambda: self.moves == wanted, f"the moves are '{wanted}'")

    def until_status(self, word):
        self.until(lambda: word in self.text("status"), f"the status has '{word}'")

    def until_told(self, word):
        self.until(lambda: word in self.text("told"), f"'{word}' is said")

    def drag(self, a, b):
        self.drag_elements(self.square(a), self.square(b))

    def draw(self, a, b, **keys):
        """Draws an arrow from one square to another, or a circle on one, as by the right button of the mouse, with keys held."""
        self.script("""
            const [a, b, keys] = arguments;
            const square = (name) => document.querySelector(`#board [data-square=${name}]`);
            square(a).scrollIntoView({ block: 'center' });
            for (const [kind, name] of [['pointerdown', a], ['pointermove', b], ['pointerup', b]]) {
                const { x, y, width, height } = square(name).getBoundingClientRect();
                square(name).dispatchEvent(new PointerEvent(kind, { button: kind === 'pointermove' ? -1 : 2, clientX: x + width / 2, clientY: y + height / 2, bubbles: true, cancelable: true, ...keys }));
            }
        """, a, b, keys)

    def drag_elements(self, a, b):
        if hasattr(self.browser, "drag"):
            self.browser.drag(a, b)
            return
        from selenium.webdriver import ActionChains
        ActionChains(self.browser).drag_and_drop(a, b).perform()

    def shows(self, name):
        """Opens the box or the menu that a control is in, by what opens it."""
        box = self.script("return document.getElementById(arguments[0]).closest('dialog')?.id ?? ''", name)
        if box and not self.script("return document.getElementById(arguments[0]).open", box):
            opener = self.script("return document.querySelector(`[data-opens=${arguments[0]}]:not(#mygames)`).id", box)
            self.click(opener)
        self.script("for (const it of document.querySelectorAll('dialog[open]')) if (it.id !== arguments[0]) it.close()", box)

    def closes(self):
        self.script("document.querySelector('dialog[open]')?.close()")

    def click(self, name):
        self.shows(name)
        self.script("arguments[0].scrollIntoView({block: 'center'})", self.at(name))
        self.at(name).click()

    def squares(self, *names):
        for name in names:
            self.square(name).click()

    def type(self, name, text, then="\n"):
        self.shows(name)
        field = self.at(name)
        self.script("arguments[0].value = ''", field)
        field.send_keys(text + then)

    def choose(self, name, value):
        self.script("const it = document.getElementById(arguments[0]); it.value = arguments[1]; it.dispatchEvent(new Event('change'))", name, value)

    def play(self, *texts):
        for text in texts:
            before = self.script("return document.querySelectorAll('.move').length")
            self.type("san", text)
            self.until(lambda: self.script("return document.querySelectorAll('.move').length") > before, f"{text} is made")

    def set_fen_now(self, fen):
        self.script("document.getElementById('fen').value = arguments[0]; document.getElementById('fenform').requestSubmit()", fen)

    def set_fen(self, fen):
        self.set_fen_now(fen)
        self.until(lambda: self.fen == fen and not self.moves, f"{fen} is set")

    def paste(self, text):
        self.script("document.getElementById('pgn').value = arguments[0]", text)
        self.click("read")


class InTheBrowser(unittest.TestCase):
    @classmethod
    def setUpClass(cls):
        cls.folder = tempfile.mkdtemp()
        cls.browser = new_browser(cls.folder)
        cls.page = Page(cls.browser)

    @classmethod
    def tearDownClass(cls):
        cls.browser.quit()
        shutil.rmtree(cls.folder, ignore_errors=True)

    def setUp(self):
        self.page.open()

    def tearDown(self):
        found = [it for it in self.browser.get_log("browser") if it["level"] == "SEVERE"]
        self.assertEqual(found, [])

    def saved(self, button="save"):
        """The file that 'Save the game' writes, or another button for a file; `saved_as` is its name."""
        def names():
            return [it for it in os.listdir(self.folder) if it.endswith(".pgn")]

        for name in names():
            os.remove(f"{self.folder}/{name}")
        self.page.click(button)
        self.page.until(lambda: names() and not [it for it in os.listdir(self.folder) if it.endswith(".crdownload")], "the game is saved")
        [self.saved_as] = names()
        with open(f"{self.folder}/{self.saved_as}", "rb") as file:
            return file.read()

    def test_a_game_to_mate_by_drag_by_clicks_and_by_text(self):
        page = self.page
        page.drag("f2", "f3")
        page.until_moves("1. f3")
        page.play("e5")
        page.squares("g2", "g4")
        page.until_moves("1. f3 e5 2. g4")
        page.drag("d8", "h4")
        page.until_moves("1. f3 e5 2. g4 Qh4#")
        page.until_status("Checkmate: the game is over (Article 5.1.1)")
        self.assertEqual(page.fen, "rnb1kbnr/pppp1ppp/8/4p3/6Pq/5P2/PPPPP2P/RNBQKBNR w KQkq - 1 3")
        self.assertIn("gives check", page.square("h4").get_attribute("aria-label"))

    def test_en_passant_and_both_castlings(self):
        page = self.page
        page.play("e4", "a6", "e5", "d5")
        page.drag("e5", "d6")
        page.until_moves("1. e4 a6 2. e5 d5 3. exd6")
        self.assertEqual(page.fen.split()[0], "rnbqkbnr/1pp1pppp/p2P4/8/8/8/PPPP1PPP/RNBQKBNR")
        page.set_fen("r3k2r/8/8/8/8/8/8/R3K2R w KQkq - 0 1")
        page.drag("e1", "g1")
        page.until_moves("1. O-O")
        page.squares("e8", "c8")
        page.until_moves("1. O-O O-O-O")
        self.assertEqual(page.fen.split()[0], "2kr3r/8/8/8/8/8/8/R4RK1")

    def test_each_promotion(self):
        from selenium.webdriver.common.by import By
        page = self.page
        for letter, name in zip("qrbn", ("queen", "rook", "bishop", "knight")):
            page.set_fen("7k/P7/8/8/8/8/8/K7 w - - 0 1")
            page.drag("a7", "a8")
            page.until(lambda: page.script("return document.getElementById('promotion').open"), "the promotion is asked for")
            button = self.browser.find_element(By.CSS_SELECTOR, f"#promotion [data-move=a7a8{letter}]")
            self.assertEqual(button.get_attribute("aria-label"), f"white {name}")
            button.click()
            page.until(lambda: page.fen.startswith(f"{letter.upper()}6k/"), f"a {name} is there")

    def test_what_is_not_legal_is_refused_and_nothing_is_lost(self):
        page = self.page
        page.play("e4")
        before = page.fen
        for text, said in (("e4", "isn’t legal"), ("Xy", "isn’t written as a move"), ("Ke4", "isn’t legal")):
            page.type("san", text)
            page.until_told(said)
            self.assertEqual(page.fen, before)
        page.drag("e7", "e4")
        page.until_told("isn’t legal")
        page.type("fen", "8/8/8/8/8/8/8/8 w - - 0 1")
        page.until_told("no king, or more than one")
        self.assertIn("no king, or more than one", page.text("fentold"))
        page.closes()
        page.paste("1. e4 e5 2. Ke3 *")
        page.until_told("a word that names no legal move, at line 1, column 13, move 2 of White: “Ke3”")
        # (it is shown repaired, beside the game)
        page.until_moves("1. e4 e5 cut: Ke3")
        page.script("document.getElementById('undo').click()")
        page.until_moves("1. e4")
        for text in ("   ", "42", "1. ", "1-0", '[White "?"]\n\n*'):
            page.script("document.getElementById('told').textContent = ''")
            page.paste(text)
            page.until_told("There is no game in it.")
            self.assertEqual((page.moves, page.fen), ("1. e4", before))
        page.type("comment", "a } brace")
        page.until_told("closing brace")
        self.assertEqual(page.moves, "1. e4")
        page.at("comment").send_keys("\ue00c")
        page.set_fen("4k3/8/8/8/8/2N5/8/4K1N1 w - - 0 1")
        page.type("san", "Ne2")
        page.until_told("More than one man")

    def test_a_variation_is_added_commented_promoted_and_deleted(self):
        page = self.page
        page.play("e4", "e5")
        page.click("back")
        page.until(lambda: page.fen.split()[1] == "b" and "e5" in page.moves, "one move is taken back")
        page.play("c5")
        page.until_moves("1. e4 e5 1... c5")
        for nag, shown in (("4", "c5??"), ("1", "c5!"), ("18", "c5!+\u2212"), ("18", "c5!"), ("14", "c5!\u2a72"), ("15", "c5!\u2a71"), ("1", "c5\u2a71"), ("15", "c5"), ("1", "c5!")):
            page.choose("nag", nag)
            page.until_moves(f"1. e4 e5 1... {shown}")
        page.choose("nag", "none")
        page.until_moves("1. e4 e5 1... c5")
        page.click("undo")
        page.until_moves("1. e4 e5 1... c5!")
        page.type("comment", "the Sicilian")
        page.until_moves("1. e4 e5 1... c5! the Sicilian")
        page.click("promote")
        page.until(lambda: page.moves.startswith("1. e4 c5!"), "the variation is promoted")
        self.assertEqual(self.saved().split(b"\n\n")[1], b"1. e4 c5 $1 {the Sicilian} (1... e5) *")
        page.click("delete")
        page.until_moves("1. e4 e5")
        page.click("start")
        page.until(lambda: page.fen.endswith("w KQkq - 0 1"), "the start is shown")
        page.click("end")
        page.until(lambda: page.fen.split()[1] == "w" and "/4p3/" in page.fen, "the end is shown")

    def test_a_game_comes_in_and_goes_out_as_the_program_writes_it(self):
        text = (b'[Event "A \\"quoted\\" name"]\n[White "Caf\xc3\xa9, A."]\n[Black "Latin \xe9"]\n[ECO "C50"]\n[Result "1-0"]\n\n{ before  the\tgame } 1. e4 $1 {first}'
                b" e5 (1... c5 2. Nf3 (2. c3 $5 d5) 2... d6 {why not}) (1... e6) 2. Nf3 Nc6!? 3. Bc4 Nf6 4. Ng5 d5 5. exd5 Na5 1-0\n\n")
        other = b'[FEN "4k3/P7/8/8/8/8/7p/4K3 b - - 3 40"]\n\n40... h1=Q+ {check} 41. Kd2 (41. Ke2 Qe4+ $14) 41... Qb7 $19 1/2-1/2\n'
        for given in (text, other):
            with tempfile.NamedTemporaryFile(suffix=".pgn") as file:
                file.write(given)
                file.flush()
                self.page.at("file").send_keys(file.name)
                self.page.until(lambda: self.page.moves, "the game is read")
            self.assertEqual(self.saved(), chess("pgn", given=given).stdout)
            self.assertEqual(self.saved_as, "Café_A-Latin_é.pgn" if given == text else "game.pgn")
            self.page.click("new")
            self.page.until_moves("")

    def test_the_entry_of_the_list_that_is_on_the_board_is_marked(self):
        page = self.page
        current = "return [...document.querySelectorAll('#games li')].map((it) => Boolean(it.querySelector('[aria-current]')))"

        def chosen(number):
            page.script("document.querySelectorAll('#games button')[arguments[0]].click()", number)
            page.until(lambda: page.script(current) == [it == number for it in range(3)], f"entry {number} is marked: {page.script(current)}")

        games = "1. e4 *\n\n1. d4 *\n\n1. c4 *\n"
        page.paste(games)
        page.until(lambda: page.script(current) == [True, False, False], "the first game is on the board")
        chosen(2)
        page.click("new")
        page.until(lambda: page.script(current) == [False] * 3, "none is")
        page.click("undo")
        page.until(lambda: page.script(current) == [False, False, True], "the last one is again")
        with tempfile.NamedTemporaryFile(suffix=".pgn") as file:
            file.write(games.encode())
            file.flush()
            page.at("file").send_keys(file.name)
            page.until(lambda: page.script("return document.getElementById('saveback').hidden") is False, "the file is read")
        chosen(1)
        page.click("undo")
        page.until(lambda: page.script(current) == [True, False, False], "the first one is again")
        page.paste("4k3/8/8/8/8/8/8/R3K3 w - - 0 1\n4k3/8/8/8/8/8/8/4K2R w - - 0 1\n4k3/8/8/8/8/8/8/4K2Q b - - 0 1\n")
        page.until_told("choose one")
        chosen(1)

    def test_all_games_are_saved_in_one_file(self):
        games = [b'[White "A"]\n[Date "2024.??.??"]\n\n1. e4 {first} *', b"1. d4 d5 1/2-1/2", b"{a comment alone} *"]
        for text in games:
            self.page.paste(text.decode())
            self.page.until(lambda: self.page.moves, "the game is read")
            self.page.click("new")
            self.page.until_moves("")
        self.page.play("c4")
        wanted = chess("pgn", given=b"\n\n".join([*games, b"1. c4 *"])).stdout
        self.assertEqual(self.saved("saveall").rstrip(), wanted.rstrip())
        self.assertRegex(self.saved_as, r"^games-\d{4}-\d\d-\d\d\.pgn$")

    def test_a_game_with_equal_moves_side_by_side_is_kept(self):
        for text in (b"1. e4 {a} (1. e4 {b} e5) 1... c5 *", b'[White "A"]\n\n{r} 1. d4 (1. d4 $1 (1. c4) 1... d5) (1. d4 {x}) 1... f5 {y} 0-1'):
            self.page.paste(text.decode())
            self.page.until(lambda: self.page.moves and ("e4" in self.page.moves) == (b"e4" in text), "the game is read")
            self.assertEqual(self.saved(), chess("pgn", given=text).stdout)

    def test_reading_a_file_takes_nothing_that_is_done_meanwhile(self):
        from selenium.webdriver.common.by import By
        page, count = self.page, 12_000
        games = [f'[White "W{number}"]\n\n1. {"d4 d5" if number == 5 else "e4 e5"} {{{"word " * 20}}} *\n\n' for number in range(1, count + 1)]
        with tempfile.NamedTemporaryFile(suffix=".pgn") as file:
            file.write("".join(games).encode())
            file.flush()
            # (the page itself clicks, as soon as the first game is there and five are listed: a test that looks now and then may come too late)
            page.script("""
                const here = () => document.getElementById('moves').textContent.includes('e4') && document.querySelectorAll('#games button')[4];
                const watch = new MutationObserver(() => {
                  if (!here()) return;
                  watch.disconnect();
                  window.early = document.getElementById('howmany').textContent;
                  here().click();
                });
                for (const name of ['games', 'moves']) watch.observe(document.getElementById(name), { childList: true, subtree: true });
            """)
            page.at("file").send_keys(file.name)
            page.until(lambda: page.moves.startswith("1. d4"), "the fifth game is loaded")
            early = page.script("return window.early")
            page.type("san", "Nf3")
            page.until(lambda: "1. Nf3" in page.moves, "a move is made")
            page.until(lambda: page.text("howmany").startswith(f"{count} games"), "the file is read")
        self.assertFalse(early.startswith(f"{count} "), "the file was read before anything was done")
        self.assertTrue(page.moves.startswith("1. d4") and "1. Nf3" in page.moves, page.moves)
        drop = """
            const given = new DataTransfer();
            given.items.add(new File([arguments[0]], 'game.pgn'));
            document.body.dispatchEvent(new DragEvent('drop', { dataTransfer: given, bubbles: true, cancelable: true }));
            document.getElementById('new').click();
            document.getElementById('san').value = 'c4';
            document.getElementById('sanform').requestSubmit();
        """
        page.script(drop, "1. e4 e5 *")
        page.until(lambda: page.text("howmany") == "1 games", "the game is in the list")
        page.until_told("the board is as you left it")
        self.assertEqual(page.moves, "1. c4")
        self.browser.find_element(By.CSS_SELECTOR, "#games button").click()
        page.until_moves("1. e4 e5")

    def test_a_comment_that_is_being_typed_stays(self):
        from selenium.webdriver.common.keys import Keys
        page = self.page

        def typed(text):
            page.type("comment", text, then="")

        def box():
            return page.script("return document.getElementById('comment').value")

        page.play("e4")
        typed("good")
        self.page.script("document.getElementById('san').value = 'e4'; document.getElementById('sanform').requestSubmit()")
        page.until_told("isn’t legal")
        page.until_moves("1. e4 good")
        typed("the best")
        page.at("comment").send_keys(Keys.ALT, Keys.LEFT)
        page.until_moves("1. e4 the best")
        page.until(lambda: box() == "", "the box is that of the start")
        typed("begun")
        page.square("d2").click()
        page.square("d4").click()
        page.until_moves("begun 1. e4 the best 1. d4")
        typed("a } brace")
        for leave in (lambda: page.click("back"), lambda: page.squares("d7", "d5"), lambda: page.click("new"), lambda: page.click("save"), lambda: page.at("comment").send_keys(Keys.ENTER)):
            page.script("document.getElementById('told').textContent = ''")
            leave()
            page.until_told("closing brace")
            self.assertEqual((box(), page.moves), ("a } brace", "begun 1. e4 the best 1. d4"))
        typed("no brace")
        page.click("back")
        page.until_moves("begun 1. e4 the best 1. d4 no brace")
        page.until(lambda: box() == "begun", "the box is that of the start")
        typed("given up")
        page.at("comment").send_keys(Keys.ESCAPE)
        self.assertEqual((box(), page.moves), ("begun", "begun 1. e4 the best 1. d4 no brace"))
        typed("written")
        self.assertIn(b"{written}", self.saved())

    def test_a_comment_that_is_being_typed_stays_while_the_engine_plays(self):
        page = self.page
        page.play("e4")
        page.type("comment", "I think", then="")
        page.choose("depth", "1")
        page.choose("plays", "b")
        page.until(lambda: page.script("return document.querySelectorAll('#lines li').length") == 1, "the engine has thought")
        time.sleep(0.3)
        self.assertEqual((page.moves, page.script("return document.getElementById('comment').value")), ("1. e4", "I think"))
        page.at("comment").send_keys(" so\n")
        page.until(lambda: page.fen.split()[1] == "w", "the engine moves")
        self.assertTrue(page.moves.startswith("1. e4 I think so 1..."), page.moves)
        page.choose("plays", "")

    def test_random_doings_lose_no_comment(self):
        """Comments typed and left in their box, moves, steps and refusals, beside the board of the library: a comment is set before anything else is done."""
        from selenium.webdriver.common.keys import Keys
        page, rng, board, draft = self.page, random.Random(5), library().Board(), None
        page.play("e4", "e5", "Nf3")
        for san in ("e4", "e5", "Nf3"):
            board.line(f"play {san}")

        def comment():
            """That of the node at the cursor: a mark is set in its place, and taken back."""
            before = board.pgn().split("\n\n", 1)[1].replace("\n", " ")
            other = board.copy()
            other.line("comment MARK")
            after = other.pgn().split("\n\n", 1)[1].replace("\n", " ")
            at = after.index("{MARK}")
            return before[at + 1:before.index("}", at)] if before[at:at + 1] == "{" and before[:at] == after[:at] else ""

        def seen():
            return page.script("return [document.getElementById('fen').value, document.getElementById('comment').value]")

        for number in range(70):
            what = rng.choice(["type", "type", "play", "play", "illegal", "back", "forward", "start", "end", "nag", "nag", "unmark", "escape", "enter", "delete", "promote"])
            line = None
            if what == "type":
                draft = rng.choice(["good", "so-so", "schön (it) is; $5", "a } brace", "word " * 12 + "end"]) + f" {number}"
                page.type("comment", draft, then="")
            elif what == "escape":
                page.at("comment").send_keys(Keys.ESCAPE)
                draft = None
            elif what == "enter":
                page.at("comment").send_keys(Keys.ENTER)
                line = ""
            elif what in ("play", "illegal"):
                line = f"play {board.san(rng.choice(board.legal_moves))}" if what == "play" and board.legal_moves else "play Kh8"
                page.type("san", line[5:])
            elif what == "nag":
                line = "nag 1"
                page.choose("nag", "1")
            elif what in ("back", "start", "delete", "promote", "unmark") and board.line("path") == "-":
                continue
            elif what == "unmark":
                line = ""
                page.choose("nag", "none")
            else:
                line = "step 0" if what == "forward" else what
                page.click(what)
            if line is not None:
                if draft is None or board.line(f"comment {draft}") == "ok":
                    draft = None
                    was = board.line("pgn")
                    if what in ("nag", "unmark") and board.line("path") != "-":
                        self.assertEqual(library()._library.lib.jatshegi_board_clear_annotations(board._at), 0)
                    # (the mark that was there is taken out)
                    if line and (what != "nag" or board.line("pgn") == was):
                        board.line(line)
            page.until(lambda: seen() == [board.fen(), comment() if draft is None else draft], f"after {number}, {what} {line}: {board.fen()}, {draft or comment()}")
        page.at("comment").send_keys(Keys.ESCAPE)
        self.assertEqual(self.saved().decode().rstrip(), board.pgn().rstrip())

    def test_a_file_of_many_games(self):
        from selenium.webdriver.common.by import By
        page = self.page
        games = [b'[White "One"]\n[Black "Two"]\n\n1. e4 e5 1-0\n\n', b'[White "Bad"]\n\n1. e4 e4 *\n\n', b'[White "Three"]\n[Black "Four"]\n\n1. d4 d5 2. c4 0-1\n\n', b'[White "Five"]\n\n1. c4 *\n\n', b'[ECO "B20"]\n[Opening "Sicilian"]\n\n1. e4 c5 *\n']
        with tempfile.NamedTemporaryFile(suffix=".pgn") as file:
            file.write(b"".join(games))
            file.flush()
            page.at("file").send_keys(file.name)
            page.until(lambda: page.text("howmany") == "4 games, and 1 that can’t be read", "the games are listed")
        self.assertIn("2. Can’t be read: a word that names no legal move, at line 8, column 7, move 1 of Black: “e4”", page.text("games"))
        page.until_moves("1. e4 e5")
        for words in ("sicilian", "four"):
            page.type("find", words, then="")
            page.until(lambda: page.script("return document.querySelectorAll('#games li').length") == 1 and ("B20" in page.text("games")) == (words == "sicilian"), "one is found")
        self.browser.find_element(By.CSS_SELECTOR, "#games button").click()
        page.until_moves("1. d4 d5 2. c4")
        self.assertEqual(self.saved(), chess("pgn", given=games[2]).stdout)
        # what is no game takes neither the board nor the list
        for garbage, said in (("zzz", "names no legal move"), (" ", "There is no game in it.")):
            page.paste(garbage)
            page.until_told(said)
            self.assertEqual((page.moves, page.text("howmany"), page.at("collection").is_displayed()), ("1. d4 d5 2. c4", "4 games, and 1 that can’t be read", True))

    def test_a_file_of_games_with_findings(self):
        page = self.page
        games = [b'[White "One"]\n\n1. f3 e5 2. g4 Qh4# 1-0\n\n', b'[White "Two"]\n\n1. e4 1-0\n\n', b'[White "Three"]\n\n' + b"Nf3 Nf6 Ng1 Ng8 " * 5 + b"e4 *\n"]
        with tempfile.NamedTemporaryFile(suffix=".pgn") as file:
            file.write(b"".join(games))
            file.flush()
            page.at("file").send_keys(file.name)
            page.until(lambda: page.text("howmany") == "3 games; 2 with a finding", "the games are listed")
        rows = page.script("return [...document.querySelectorAll('#games li')].map((it) => it.textContent.trim())")
        self.assertTrue(rows[0].endswith("— the board says 0-1"), rows)
        self.assertNotIn("—", rows[1])
        self.assertTrue(rows[2].endswith("— played on after the fifth repetition"), rows)

    def test_games_are_dropped_and_pasted(self):
        page = self.page
        give = """
            const [kind, text] = arguments;
            const given = new DataTransfer();
            if (kind === 'file') given.items.add(new File([text], 'game.pgn')); else given.setData('text', text);
            document.body.dispatchEvent(kind === 'paste'
              ? new ClipboardEvent('paste', { clipboardData: given, bubbles: true, cancelable: true })
              : new DragEvent('drop', { dataTransfer: given, bubbles: true, cancelable: true }));
        """
        page.script(give, "file", "1. e4 c5 *")
        page.until_moves("1. e4 c5")
        page.script(give, "text", "1. d4 Nf6 *")
        page.until_moves("1. d4 Nf6")
        page.script(give, "paste", "1. c4 e5 *")
        page.until_moves("1. c4 e5")
        page.script(give, "file", "1. e4 e4 *")
        page.until_told("This game was repaired (a word that names no legal move")
        page.until_moves("1. e4 cut: e4")

    def test_text_stands_out_from_what_is_behind_it(self):
        """WCAG 2.2, 1.4.3: a contrast of 4.5 at least, 3 for large text."""
        faint = """
            const light = (part) => part <= 0.03928 ? part / 12.92 : ((part + 0.055) / 1.055) ** 2.4;
            const colour = (text) => text.match(/[\\d.]+/g).map(Number);
            const bright = ([r, g, b]) => 0.2126 * light(r / 255) + 0.7152 * light(g / 255) + 0.0722 * light(b / 255);
            const ground = (it) => { for (; it; it = it.parentElement) { const c = colour(getComputedStyle(it).backgroundColor); if (c.length < 4 || c[3] === 1) return c; } return [255, 255, 255]; };
            return [...document.querySelectorAll('body *')].filter((it) => it.checkVisibility() && !it.closest('svg, option, :disabled')
                && [...it.childNodes].some((node) => node.nodeType === 3 && node.data.trim())).flatMap((it) => {
              const style = getComputedStyle(it);
              const [a, b] = [bright(colour(style.color)), bright(ground(it))];
              const contrast = (Math.max(a, b) + 0.05) / (Math.min(a, b) + 0.05);
              const large = parseFloat(style.fontSize) >= 24 || (parseFloat(style.fontSize) >= 18.66 && style.fontWeight >= 700);
              return contrast < (large ? 3 : 4.5) ? [`${it.outerHTML.slice(0, 90)} ${contrast.toFixed(2)}`] : [];
            });
        """
        for scheme in ("light", "dark"):
            self.browser.execute_cdp_cmd("Emulation.setEmulatedMedia", {"features": [{"name": "prefers-color-scheme", "value": scheme}]})
            try:
                self.page.open()
                self.page.play("e4", "e5")
                self.page.choose("heat", "counts w")
                self.page.type("san", "e9")
                self.page.until(lambda: self.page.text("told"), "it is refused")
                self.assertEqual("\n".join(self.page.script(faint)), "", scheme)
            finally:
                self.browser.execute_cdp_cmd("Emulation.setEmulatedMedia", {"features": []})

    def test_the_engine_analyses_stops_and_plays(self):
        page = self.page
        page.choose("depth", "16")
        page.click("analyse")
        page.until(lambda: "1" in page.script("return [...document.querySelectorAll('#lines li')].map((it) => it.dataset.depth)"), "depth 1 is told")
        page.click("analyse")
        page.until(lambda: page.text("thinking").startswith("Stopped"), "it is stopped")
        self.assertNotEqual(page.text("lines"), "")
        page.play("e4")
        page.choose("depth", "2")
        page.click("analyse")
        told = chess("uci", given=b"position fen rnbqkbnr/pppppppp/8/8/4P3/8/PPPP1PPP/RNBQKBNR b KQkq e3 0 1\ngo depth 2\n").stdout.decode()
        best = [line.split()[-1] for line in told.splitlines() if line.startswith("info depth")]
        page.until(lambda: page.script("return [...document.querySelectorAll('#lines li')].map((it) => it.dataset.move).reverse()") == best, f"the best moves are {best}")
        page.click("analyse")
        page.choose("plays", "b")
        page.until(lambda: page.fen.split()[1] == "w", "the engine moves")
        page.choose("plays", "")
        self.assertEqual(page.script("return document.querySelectorAll('.move').length"), 2)

    def test_the_link_holds_the_game(self):
        page = self.page
        page.play("e4", "e5", "Nf3")
        page.click("back")
        page.click("flip")
        page.type("comment", "grüezi")
        page.until(lambda: "grüezi" in page.moves, "the comment is there")
        had = page.moves, page.fen
        # The address follows a little later, so a link without the comment may be there first.
        page.click("link")
        page.until(lambda: "link is copied" in page.text("told") or "#g=" in page.script("return document.getElementById('pgn').value"), "the link is copied")
        page.until(lambda: page.script("return document.documentElement.dataset.given") == page.script("return location.hash"), "the address has it")
        link = page.script("return location.hash")
        page.open(link)
        page.until(lambda: (page.moves, page.fen) == had, "the game is there again")
        self.assertEqual(page.script("return document.querySelector('[data-square]').dataset.square"), "h1")
        page.open("#g=nonsense")
        page.until_told("doesn’t hold a game")

    def test_claims_and_ends_have_their_articles(self):
        page = self.page
        page.play("Nf3", "Nf6", "Ng1", "Ng8", "Nf3", "Nf6", "Ng1")
        page.until(lambda: "With Ng8 a draw by threefold repetition (Article 9.2.1)" in page.script("return document.getElementById('laws').innerText").replace("\n", " "), "it may be claimed with the move")
        page.play("Ng8")
        page.until(lambda: "a draw by threefold repetition (Article 9.2.2)" in page.text("laws"), "it may be claimed")
        for fen, article in (("7k/5Q2/6K1/8/8/8/8/8 b - - 0 1", "5.2.1"), ("8/8/8/8/8/4k3/8/4K3 w - - 0 1", "5.2.2"), ("4k3/8/8/8/8/8/8/R3K3 w - - 150 90", "9.6.2")):
            page.set_fen(fen)
            page.until_status(f"(Article {article})")
        page.set_fen("4k3/8/8/8/8/8/4R3/4K3 b - - 0 1")
        page.until_status("in check from e2 (Article 3.9.1)")

    def test_the_heat_map_is_what_the_board_answers(self):
        page = self.page
        page.choose("heat", "counts b")
        given = chess("board", given=b"counts b\n").stdout.decode().replace("/", " ").split()
        shown = page.script("""return [...'12345678'].flatMap((r) => [...'abcdefgh'].map((f) => document.querySelector(`[data-square=${f}${r}] .heat`).textContent || '0'))""")
        self.assertEqual(shown, given)

    def test_by_keyboard_alone(self):
        from selenium.webdriver import ActionChains
        from selenium.webdriver.common.keys import Keys
        page = self.page

        def keys(*all_of_them):
            for key in all_of_them:
                ActionChains(self.browser).send_keys(key).perform()

        def shifted(*all_of_them):
            for key in all_of_them:
                ActionChains(self.browser).key_down(Keys.SHIFT).send_keys(key).key_up(Keys.SHIFT).perform()

        def focused():
            return page.script("const it = document.activeElement; return it.dataset.square || it.id || it.textContent")

        for _ in range(20):
            keys(Keys.TAB)
            if focused() == "e2":
                break
        self.assertEqual(focused(), "e2")
        keys(Keys.ENTER)
        self.assertIn("may be moved to", page.square("e4").get_attribute("aria-label"))
        shifted(Keys.UP, Keys.UP)
        keys(Keys.ENTER)
        page.until_moves("1. e4")
        self.assertEqual(focused(), "e4")
        shifted(Keys.UP, Keys.UP, Keys.UP)
        keys(Keys.SPACE)
        shifted(Keys.DOWN, Keys.DOWN)
        keys(Keys.SPACE)
        page.until_moves("1. e4 e5")
        keys(Keys.LEFT, Keys.LEFT)
        page.until(lambda: page.fen.endswith("w KQkq - 0 1"), "arrows alone step, on the board, too")
        keys(Keys.DOWN)
        page.until(lambda: page.fen.split()[1] == "w" and "/4p3/" in page.fen, "down goes to the end")
        ActionChains(self.browser).key_down(Keys.ALT).send_keys(Keys.ARROW_LEFT).key_up(Keys.ALT).perform()
        page.until(lambda: page.fen.split()[1] == "b", "one move is taken back")
        keys(Keys.HOME)
        page.until(lambda: page.fen.endswith("w KQkq - 0 1"), "the start is shown")
        for _ in range(40):
            keys(Keys.TAB)
            if focused() == "san":
                break
        keys("d4", Keys.ENTER)
        page.until(lambda: "d4" in page.moves, "d4 is made")

    def test_a_narrow_window_has_no_sideways_scroll(self):
        page = self.page
        self.browser.execute_cdp_cmd("Emulation.setDeviceMetricsOverride", {"width": 360, "height": 740, "deviceScaleFactor": 1, "mobile": True})
        try:
            page.open()
            page.play("e4", "e5", "Nf3", "Nc6")
            self.assertLessEqual(page.script("return document.documentElement.scrollWidth"), 360)
            self.assertGreaterEqual(page.script("return document.getElementById('board').offsetWidth"), 290)
        finally:
            self.browser.execute_cdp_cmd("Emulation.clearDeviceMetricsOverride", {})

    def test_a_browser_that_cannot_begin_the_board_says_so(self):
        """It refuses the module, or the worker is not to be had."""
        for name in ("jatshegi.wasm", "worker.js"):
            with self.subTest(lacks=name), tempfile.TemporaryDirectory() as folder:
                shutil.copytree(WEB, f"{folder}/web")
                with open(f"{folder}/web/{name}", "wb") as file:
                    file.write(b"}")
                spoilt = serve(f"{folder}/web")
                try:
                    self.browser.get(f"http://127.0.0.1:{spoilt.server_port}/index.html")
                    self.page.until(lambda: "The board could not be begun" in self.page.text("lacking"), "it is said")
                    self.assertFalse(self.page.at("main").is_displayed())
                finally:
                    # (before its server is gone, the page is)
                    self.browser.get("about:blank")
                    self.browser.get_log("browser")
                    stop(spoilt)

    def test_a_page_whose_scripts_do_not_come_says_so(self):
        with tempfile.TemporaryDirectory() as folder:
            shutil.copytree(WEB, f"{folder}/web")
            os.remove(f"{folder}/web/game.js")
            spoilt = serve(f"{folder}/web")
            try:
                self.browser.get(f"http://127.0.0.1:{spoilt.server_port}/index.html")
                self.page.until(lambda: self.page.at("lacking").is_displayed(), "it is said")
                self.assertIn("has not begun", self.page.text("lacking"))
            finally:
                self.browser.get("about:blank")
                self.browser.get_log("browser")
                stop(spoilt)

    def test_every_control_has_a_name_and_nothing_comes_from_elsewhere(self):
        unnamed = self.page.script("""
            return [...document.querySelectorAll('button, input, select, textarea, dialog, [role=img], [role=grid], [role=group]')].filter((it) => !it.hidden && it.type !== 'file').filter((it) => {
                const label = it.labels?.[0]?.textContent || it.getAttribute('aria-label') || document.getElementById(it.getAttribute('aria-labelledby'))?.textContent || (it.tagName === 'BUTTON' && it.textContent);
                return !label || !label.trim();
            }).map((it) => it.outerHTML)""")
        self.assertEqual(unnamed, [])
        self.assertEqual(self.page.script("return [...document.querySelectorAll('[data-square]')].length"), 64)
        self.assertEqual(self.page.square("e1").get_attribute("aria-label"), "e1, white king")
        origins = self.page.script("return [...new Set(performance.getEntriesByType('resource').map((it) => new URL(it.name).origin))]")
        self.assertEqual(origins, [self.page.script("return location.origin")])


class TheModule(unittest.TestCase):
    """The module without the page."""

    @classmethod
    def setUpClass(cls):
        cls.folder = tempfile.mkdtemp()
        cls.browser = new_browser(cls.folder)
        Page(cls.browser).open()

    @classmethod
    def tearDownClass(cls):
        cls.browser.quit()
        shutil.rmtree(cls.folder, ignore_errors=True)

    def asked(self, body, *words):
        """What the body answers in the page."""
        return self.browser.execute_async_script(WITH_MODULE.replace("BODY", body), *words)

    def answers(self, lines):
        return self.asked("""
            const session = new it.Session(memory, MOST);
            done(words[0].map((line) => said(session, line)).join(''));
        """, lines)

    def script(self, rng):
        """Lines as they come, most of them moves that are legal where they are."""
        program = subprocess.Popen([CHESS, "board"], stdin=subprocess.PIPE, stdout=subprocess.PIPE)
        lines = []

        def say(line):
            lines.append(line)
            program.stdin.write(line.encode("latin-1") + b"\n")
            program.stdin.flush()
            return program.stdout.readline().decode("latin-1").strip()

        fens = ["4k3/P6P/8/2pP4/8/8/p6p/4K3 w - c6 0 2", "r3k2r/pppq1ppp/2n2n2/3pp3/3PP3/2N2N2/PPPQ1PPP/R3K2R w KQkq - 98 40", "8/8/8/8/8/8/8/8 w - - 0 1", "rubbish", "7k/8/6K1/8/8/8/8/R7 w - - 149 90"]
        others = ["status", "claims", "count", "checks", "eval", "counts w", "counts b", "fen", "path", "back", "start", "end", "promote", "delete", "step 0", "step 1", "goto 0.0", "best 1",
                  "nag 5", "nag 300", "comment a  word ", "comment }", "comment", "play zz", "play O-O", "claim e2e4", "rubbish", "best 0", "goto x", "moves", "new", ""]
        for _ in range(rng.randint(5, 40)):
            if rng.random() < 0.6:
                moves = say("moves").split()
                say(f"play {rng.choice(moves)}")
            elif rng.random() < 0.1:
                say(f"set {rng.choice(fens)}")
            else:
                line = rng.choice(others)
                if line:
                    say(line)
                else:
                    lines.append(line)
        program.stdin.close()
        program.wait()
        program.stdout.close()
        lines.append("pgn")
        return lines

    def test_the_same_bytes_as_the_program(self):
        rng = random.Random(42)
        scripts = [self.script(rng) for _ in range(500)]
        given = [["new", *lines] for lines in scripts]
        whole = [line for lines in given for line in lines]
        self.assertEqual(self.answers(whole).encode("latin-1"), chess("board", given=("\n".join(whole) + "\n").encode("latin-1")).stdout)

    def test_a_collection_is_read_and_written_as_the_program_does(self):
        rng = random.Random(4242)
        games = []
        for _ in range(60):
            told = chess("board", given=("\n".join(self.script(rng)) + "\n").encode("latin-1")).stdout
            games.append(told[told.rindex(b"[Event "):])
        given = b"".join(games)
        read = self.asked("""
            it.start(module);
            done([...it.games(it.toBytes(words[0]))].map(({ bytes }) => text(bytes)).join(''));
        """, given.decode("latin-1"))
        self.assertEqual(read.encode("latin-1"), chess("pgn", given=given).stdout)

    def random_game(self, rng, say):
        """A text with variations within one another, equal moves side by side, comments and annotations, the words of its moves from square to square."""
        def said():
            return rng.choice(["", "", "", " $1", " $14 $5"]) + rng.choice(["", "", " {a}", " {so it goes}", " {%s}" % ("word " * rng.randint(1, 30)), " {b} {c}"])

        def after(plies):
            moves = say("moves").split()
            if plies <= 0 or moves == ["none"]:
                return ""
            first = rng.choice(moves)
            text = f"{first}{said()}"
            for _ in range(rng.choice([0, 0, 0, 1, 1, 2])):
                other = first if rng.random() < 0.4 else rng.choice(moves)
                text += f" ({rng.choice(['', '', '{before} '])}{other}{said()} {played(other, rng.randint(0, plies - 1))}) {rng.choice(['', '', '{then}'])}"
            return f"{text} {played(first, plies - 1)}"

        def played(move, plies):
            say(f"play {move}")
            text = after(plies)
            say("back")
            return text

        say("new")
        return f"{rng.choice(['', '{at first} '])}{after(rng.randint(0, 9))} *\n"

    def random_games(self, rng, count):
        program = subprocess.Popen([CHESS, "board"], stdin=subprocess.PIPE, stdout=subprocess.PIPE)

        def say(line):
            program.stdin.write(line.encode() + b"\n")
            program.stdin.flush()
            return program.stdout.readline().decode().strip()

        games = [self.random_game(rng, say) for _ in range(count)]
        program.stdin.close()
        program.wait()
        program.stdout.close()
        return games

    def test_a_game_that_is_loaded_is_the_game_that_was_read(self):
        games = ["1. e4 {a} (1. e4 {b} e5) 1... c5 *\n", *self.random_games(random.Random(7), 200)]
        written = chess("pgn", given="".join(games).encode())
        self.assertEqual(written.stderr, b"")
        found = self.asked("""
            const session = new it.Session(memory, MOST);
            done(words[0].map((game) => {
              const { status, used } = session.load(it.toBytes(game));
              return [status, used, session.line('path'), session.pgn()];
            }));
        """, games)
        self.assertIsInstance(found, list, found)
        self.assertEqual({(it[0], it[2]) for it in found}, {(0, "-")})
        self.assertEqual([it[1] for it in found], [len(it.rstrip()) for it in games])
        self.assertEqual("".join(it[3] for it in found).encode(), written.stdout)

    def test_a_text_that_is_no_game_leaves_the_board(self):
        texts = [" ", "1. e5 *", "1. e4 (", "(", '[FEN "rubbish"] *']
        found = self.asked("""
            const session = new it.Session(memory, MOST);
            const before = ['play e4', 'comment c', 'pgn', 'path'].map((line) => session.line(line)).slice(2);
            done(words[0].map((given) => {
              const bytes = it.toBytes(given);
              const { status, used } = session.load(bytes);
              const found = game(session, bytes);
              return [status, used === found.used && status === found.status, session.line('pgn') === before[0] && session.line('path') === before[1]];
            }));
        """, texts)
        self.assertEqual(found, [[status, True, True] for status in (16, 43, 46, 44, 47)])

    def some_tag(self, rng, board):
        """A tag that is set, taken out or refused, on the library's board, too: what the worker is asked, and the status."""
        name = rng.choice(["White", "White", "Date", "ECO", "x_1", "", "a b", "sch\xf6n", "Result", "FEN", "SetUp"])
        value = rng.choice(["", 'the "great"', "back\\slash", '\\"', "ends \\", "caf\xe9 \xff", "] [x", "two\nlines", f"{rng.randrange(99)}"])
        status = 0
        if value == "":
            if name in board.headers:
                del board.headers[name]
        elif not re.fullmatch("[A-Za-z0-9_]+", name, re.ASCII):
            status = 18
        elif name in ("Result", "FEN", "SetUp"):
            status = 19
        elif "\n" in value:
            status = 20
        else:
            board.headers[name] = value
        return {"name": name, "value": value}, status

    def some_result(self, rng, board):
        number = rng.randrange(6)
        if number < len(MARKERS):
            board.marker = MARKERS[number]
        return {"value": number}, 0 if number < len(MARKERS) else 9

    def some_begin(self, rng, board):
        """Another game, with no tags and no result; or a refusal, and all stays."""
        line = rng.choice(["new", "set r3k2r/8/8/8/8/8/8/R3K2R w KQkq - 3 7", "set 4k3/8/8/3pP3/8/8/8/4K3 w - d6 0 2", "set 8/8/8/8/8/8/8/8 w - - 0 1", "set rubbish"])
        answer = board.line(line)
        if answer == "ok":
            for name in list(board.headers):
                del board.headers[name]
            board.marker = "*"
        return {"lines": [line]}, [answer]

    def test_the_page_s_worker_loses_nothing(self):
        """Random lines, tags, results, games begun, loaded and written, and lists of games: the board and the games of the library, which are answered beside it."""
        rng, jatshegi = random.Random(99), library()
        board, jobs, wanted = jatshegi.Board(encoding="iso-8859-1"), [], []
        games = self.random_games(rng, 40)
        kinds = ["back", "start", "end", "promote", "delete", "step 0", "step 1", "step 7", "goto 0.0", "goto 0.1.0", "nag 5", "nag 300", "comment", "comment a  word", "comment sch\xf6n", "comment }", "play zz", "rubbish", "new"]
        for _ in range(600):
            job = rng.choice(["lines", "lines", "lines", "lines", "tag", "tag", "result", "begin", "load", "export", "games"])
            if job == "lines":
                lines, answers = [], []
                for _ in range(rng.randint(0, 4)):
                    moves = board.legal_moves
                    lines.append(f"play {board.san(rng.choice(moves))}" if moves and rng.random() < 0.5 else rng.choice(kinds))
                    answers.append(board.line(lines[-1]))
                    if answers[-1].startswith("refused"):
                        lines += rng.choice([[], ["delete", "new"]])
                        break
                jobs.append({"job": job, "lines": lines})
                wanted.append([answers, board.line("path"), board.pgn().rstrip()])
                continue
            if job in ("tag", "result", "begin"):
                more, said = getattr(self, f"some_{job}")(rng, board)
                jobs.append({"job": job, **more})
                wanted.append([said, board.line("path"), board.pgn().rstrip(), board.headers["White"], board.headers["Date"], MARKERS.index(board.marker)])
                continue
            text = rng.choice([*games, *games, " ", "1. e5 *", "1. e4 (", board.pgn()])
            try:
                game = jatshegi.pgn.read_game(text.encode("latin-1"), encoding="iso-8859-1")
                status = 0 if game else 16
            except jatshegi.InvalidGameError as error:
                game, status = None, 40 + error.fault
            jobs.append({"job": job, "text": text})
            if job == "load" and game:
                board = jatshegi.Board.from_game(game)
                board.encoding = "iso-8859-1"
                wanted.append([status, board.line("path"), board.pgn().rstrip()])
            elif job == "games":
                wanted.append([1 if status != 16 else 0, int(status not in (0, 16))])
            else:
                wanted.append([status, str(game).rstrip() if game else ""] if job == "export" else [status])
        found = self.browser.execute_async_script("""
            const [jobs, done] = arguments;
            const worker = new Worker('./worker.js', { type: 'module' });
            // (a list may come in parts, where the machine is slow)
            const ask = (job) => new Promise((ready) => {
              const parts = [];
              worker.onmessage = ({ data }) => {
                if (data.part) parts.push(...data.part);
                else ready(data.result?.found ? { ...data, result: { ...data.result, found: [...parts, ...data.result.found] } } : data);
              };
              worker.postMessage({ id: 1, ...job });
            });
            const bytes = (text) => Uint8Array.from(text, (c) => c.charCodeAt(0));
            (async () => {
              await ask({ job: 'start', module: await WebAssembly.compileStreaming(fetch('jatshegi.wasm')) });
              const found = [];
              for (const { text, ...job } of jobs) {
                const { result, error } = await ask(text === undefined ? job : { ...job, bytes: bytes(text) });
                if (error) found.push(error);
                else if (['tag', 'result', 'begin'].includes(job.job)) {
                  const { path, pgn, tags, result: marker } = result.state;
                  found.push([result.status ?? result.answers, path, pgn.trimEnd(), tags.White, tags.Date, marker]);
                } else if (job.job === 'lines') found.push([result.answers, result.state.path, result.state.pgn.trimEnd()]);
                else if (job.job === 'games') found.push([result.number, result.found.filter((it) => it.fault).length]);
                else if (job.job === 'load' && result.state) found.push([result.status, result.state.path, result.state.pgn.trimEnd()]);
                else found.push(job.job === 'export' ? [result.status, result.text.trimEnd()] : [result.status]);
              }
              worker.terminate();
              done(found);
            })().catch((error) => done(String(error)));
        """, jobs)
        self.assertIsInstance(found, list, found)
        for number, (job, it, want) in enumerate(zip(jobs, found, wanted)):
            self.assertEqual(it, want, (number, job))
        self.assertEqual(len(found), len(wanted))

    def test_memory_that_is_too_small_is_an_error(self):
        """Boards over so little: what there is no memory for is refused, and what was lent to one that could not begin is lent again."""
        found = self.asked("""
            const orMemory = (action) => {
              try {
                return action();
              } catch (error) {
                return error.code;
              }
            };
            const found = [];
            for (const heap of [1, 16, 32, 48, 1024, 65536, 131072, 160000, 180000, 200000, 262144, 524288, 1048576]) {
              const had = memory.top;
              const session = orMemory(() => new it.Session(memory, heap));
              if (session === 'Memory') {
                const once = memory.top;
                for (let i = 0; i < 9; i++) orMemory(() => new it.Session(memory, heap));
                found.push([heap, 'Memory', memory.top === once && once > had]);
                continue;
              }
              const answers = ['play e4', 'play e5', 'set 8/8/8/k7/8/8/8/K7 w - - 0 1', 'pgn', 'fen'].map((line) => orMemory(() => session.line(line)));
              const { status } = game(session, it.toBytes('1. e4 e5 (1... c5 2. Nf3) 2. Nf3 *'));
              found.push([heap, answers, status, orMemory(() => session.engine('line', 'position startpos moves e2e4')), orMemory(() => session.engine('line', 'isready'))]);
            }
            done(found);
        """)
        self.assertIsInstance(found, list, found)
        self.assertEqual([it[2] for it in found if it[1] == "Memory"], [True] * len([it for it in found if it[1] == "Memory"]))
        small = [it[0] for it in found if it[1] == "Memory"]
        self.assertTrue(small and small == [it[0] for it in found][:len(small)], small)
        for heap, answers, status, placed, ready in found[len(small):]:
            for answer in answers[:3]:
                self.assertIn(answer, ("ok", "refused 5 Memory", "Memory"), heap)
            self.assertIn(status, (0, 2))
            self.assertIn(placed, ([], "Memory"))
            self.assertIn(ready, (["readyok"], "Memory"))
        self.assertEqual(found[-1][1][:3], ["ok"] * 3)
        self.assertEqual(found[-1][2:], [0, [], ["readyok"]])

    def test_a_tag_for_which_there_is_no_memory_changes_nothing(self):
        """Tags are set until one is refused, in memory of several sizes; taken out, they can be set again."""
        found = self.asked("""
            const found = [];
            const orMemory = (action) => {
              try {
                return action();
              } catch (error) {
                return error.code;
              }
            };
            const set = (session, name, value) => orMemory(() => session.setTag(it.toBytes(name), it.toBytes(value)));
            for (const heap of [262144, 524288, 1048576]) {
              const session = new it.Session(memory, heap);
              session.line('play e4');
              const named = () => [...Array(count + 2).keys()].map((i) => session.tag(`T${i}`));
              let count = 0;
              let status = 0;
              let before = [];
              while (count < 2000) {
                before = named().slice(0, -1);
                status = set(session, `T${count}`, `${count}`.repeat(300));
                if (status !== 0) break;
                count++;
              }
              const after = named().slice(0, -1);
              const results = [session.setResult(3), session.result(), session.setResult(4), session.result()];
              const cleared = [...Array(count).keys()].map((i) => session.clearTag(it.toBytes(`T${i}`)));
              const again = set(session, 'T0', 'again');
              found.push([count, status, after.every((value, i) => value === before[i] && value === (i < count ? `${i}`.repeat(300) : null)), results, cleared.every((it) => it === 0), again, session.pgn()]);
            }
            done(found);
        """)
        self.assertIsInstance(found, list, found)
        unknown = "".join(f'[{name} "{value}"]\n' for name, value in [("Event", "?"), ("Site", "?"), ("Date", "????.??.??"), ("Round", "?"), ("White", "?"), ("Black", "?"), ("Result", "1/2-1/2")])
        for count, status, is_kept, results, is_cleared, again, pgn in found:
            self.assertTrue(0 < count < 2000)
            self.assertEqual((status, is_kept, results, is_cleared, again), ("Memory", True, [0, 3, 9, 3], True, 0))
            self.assertEqual(pgn, f'{unknown}[T0 "again"]\n\n1. e4 1/2-1/2\n\n')

    def test_the_reports_of_games(self):
        texts = ["1. f3 e5 2. g4 Qh4# 1-0", "1. f3 e5 2. g4 Qh4# 0-1", "Nf3 Nf6 Ng1 Ng8 " * 5 + "e4 *", '[FEN "7k/8/6Q1/8/8/8/8/K7 b - - 0 1"] 1-0', "1. e5 *", " "]
        found = self.asked("""
            it.start(module);
            done(words[0].map((given) => {
              try {
                return it.reportOf(it.toBytes(given));
              } catch (error) {
                return error.code;
              }
            }));
        """, texts)
        names = ("plies", "winner", "over", "why", "agrees")
        wanted = [(4, "b", 4, "mate", False), (4, "b", 4, "mate", True), (21, None, 16, "fivefold", True), (0, None, 0, "stalemate", False), "Move", "NoGame"]
        self.assertEqual([it if isinstance(it, str) else tuple(it[name] for name in names) for it in found], wanted)

    def test_the_games_of_a_text(self):
        given = b'[White "a"]\n\n1. e4 {x} e5 1-0\n\n[White "b"]\n\n1. e4 Qh9 *\n\n[White "c"]\n\n1. c4 (1. d4 d5) *\n' + b"   \n"
        found = self.asked("""
            it.start(module);
            done([...it.entries(it.toBytes(words[0]))].map(({ game, fault }) => (game ? [0, text(game.bytes)] : [fault.number, '', fault.place.byte, fault.from])));
        """, given.decode())
        self.assertEqual([it[0] for it in found], [0, 3, 0])
        self.assertEqual(found[0][1].encode(), chess("pgn", given=given[:given.index(b'[White "b"]')]).stdout)
        self.assertEqual(found[1][2], given.index(b"Qh9"))
        self.assertTrue(found[1][3] in range(given.index(b"1-0") + 3, given.index(b'[White "b"]') + 1), found[1])
        self.assertEqual(found[2][1].encode(), chess("pgn", given=given[given.index(b'[White "c"]'):]).stdout)

    def test_a_search_stops_at_the_next_event(self):
        found = self.asked("""
            const session = new it.Session(memory, MOST);
            const found = [session.engine('line', 'position startpos'), session.engine('line', 'go depth 16')];
            for (let i = 0; i < 45; i++) found.push(session.engine('slice'));
            found.push(session.searching(), session.engine('line', 'stop'), session.searching(), session.engine('slice'));
            done(found.flat());
        """)
        self.assertEqual([it for it in found if it], ["info depth 1 score cp 18 pv b1c3", "info depth 2 score cp 0 pv b1c3", True, "bestmove b1c3"])


DRIVER = """<!doctype html><meta charset=utf-8><iframe src=/index.html width=1200 height=900></iframe><script>
const frame = document.querySelector('iframe');
const until = async (ready) => { while (!ready()) await new Promise((go) => setTimeout(go, 50)); };
frame.onload = async () => {
  const page = frame.contentDocument;
  const at = (name) => page.getElementById(name);
  const play = async (text) => {
    const before = at('fen').value;
    at('san').value = text;
    at('sanform').requestSubmit();
    await until(() => at('fen').value !== before);
  };
  await until(() => at('fen').value);
  const first = at('fen').value;
  for (const text of ['f3', 'e5', 'g4', 'Qh4']) await play(text);
  await fetch('/report', { method: 'POST', body: [first, at('fen').value, at('status').textContent].join('|') });
};
</script>"""


class InFirefox(unittest.TestCase):
    """The page in Firefox, which has no driver in Debian: a page around it plays a game and posts what is seen."""

    @unittest.skipUnless(shutil.which("firefox-esr"), "the package firefox-esr is missing")
    def test_a_game_to_mate(self):
        reported = queue.Queue()

        class Driven(Handler):
            def do_GET(self):
                if self.path != "/driver.html":
                    return super().do_GET()
                self.send_response(200)
                self.send_header("Content-Type", "text/html")
                self.end_headers()
                self.wfile.write(DRIVER.encode())

            def do_POST(self):
                reported.put(self.rfile.read(int(self.headers["Content-Length"])).decode())
                self.send_response(204)
                self.end_headers()

        around = serve(WEB, Driven)
        with tempfile.TemporaryDirectory(ignore_cleanup_errors=True) as folder:
            words = ["firefox-esr", "--headless", "--no-remote", "--profile", folder, f"http://127.0.0.1:{around.server_port}/driver.html"]
            browser = subprocess.Popen(words, stdout=subprocess.DEVNULL, stderr=subprocess.DEVNULL, env={**os.environ, "HOME": folder})
            try:
                first, fen, status = reported.get(timeout=PATIENCE).split("|")
            finally:
                browser.terminate()
                browser.wait()
                stop(around)
        self.assertEqual(first, "rnbqkbnr/pppppppp/8/8/8/8/PPPPPPPP/RNBQKBNR w KQkq - 0 1")
        self.assertEqual(fen, "rnb1kbnr/pppp1ppp/8/4p3/6Pq/5P2/PPPPP2P/RNBQKBNR w KQkq - 1 3")
        self.assertIn("mate", status.lower())


class TheFiles(unittest.TestCase):
    def test_the_module_is_what_the_sources_give(self):
        made = subprocess.run([f"{runs.TOP}/tools/sources", "--wasm", "chess_c"], capture_output=True, check=True).stdout
        with open(f"{WEB}/jatshegi.sources", "rb") as file:
            self.assertEqual(hashlib.sha256(made).hexdigest(), hashlib.sha256(file.read()).hexdigest(), "make the module anew: tools/web")

    def test_the_list_of_what_a_browser_keeps_is_that_of_the_files(self):
        ran = subprocess.run([f"{runs.TOP}/tools/offline", "--check"], capture_output=True, text=True)
        self.assertEqual((ran.returncode, ran.stderr), (0, ""))

    def test_each_module_is_asked_for_at_once(self):
        """The page names all modules that its own import, so that none waits for another."""
        def imported(name, found):
            if name not in found:
                found.add(name)
                with open(f"{WEB}/{name}", encoding="utf-8") as file:
                    for it in re.findall(r"^(?:import|export) .*'(\.[^']+)';$", file.read(), re.M):
                        imported(os.path.normpath(os.path.join(os.path.dirname(name), it)), found)
            return found

        with open(f"{WEB}/index.html", encoding="utf-8") as file:
            named = re.findall(r'<(?:link rel="modulepreload" href|script type="module" src)="([^"]+)"', file.read())
        self.assertEqual(sorted(named), sorted(imported("main.js", set())))

    def test_the_page_is_small(self):
        with open(f"{WEB}/offline.js", encoding="utf-8") as file:
            names = re.findall(r"^  '(.+)': 'sha256", file.read(), re.M)
        self.assertLess(sum(os.path.getsize(f"{WEB}/{name}") for name in names if not name.endswith((".wasm", ".png"))), 290_000)


def pictures():
    """Makes the screenshots of docs/ anew: light, dark and narrow."""
    setUpModule()
    with tempfile.TemporaryDirectory() as folder:
        browser = new_browser(folder, "--hide-scrollbars")
        page = Page(browser)
        for name, scheme, width, height in (("light", "light", 1280, 800), ("dark", "dark", 1024, 768), ("narrow", "light", 360, 740)):
            browser.execute_cdp_cmd("Emulation.setDeviceMetricsOverride", {"width": width, "height": height, "deviceScaleFactor": 1, "mobile": width < 500})
            browser.execute_cdp_cmd("Emulation.setEmulatedMedia", {"features": [{"name": "prefers-color-scheme", "value": scheme}]})
            page.open()
            page.paste("1. e4 e5 2. Nf3 Nc6 3. Bc4 {The Italian.} Bc5 (3... Nf6 4. Ng5 $5 d5 5. exd5 Na5 $1 {and not 5... Nxd5}) 4. b4 $1 Bxb4 5. c3 Ba5 6. d4 exd4 7. O-O *")
            page.until(lambda: "O-O" in page.moves, "the game is read")
            page.click("end")
            page.until(lambda: "RNBQ1RK1" in page.fen, "the end is shown")
            if name == "dark":
                page.choose("heat", "counts w")
            page.click("analyse")
            page.until(lambda: page.script("return document.querySelectorAll('#lines li').length") == 4, "four depths are told")
            if name == "light":
                page.square("d8").click()
            page.script("document.activeElement.blur(); scrollTo(0, 0)")
            time.sleep(0.5)
            browser.save_screenshot(f"{runs.TOP}/docs/web-{name}.png")
        browser.quit()
    tearDownModule()


SPEEDS = WITH_MODULE.replace("BODY", """
  const timed = (times, call) => {
    const begun = performance.now();
    for (let i = 0; i < times; i++) call();
    return (performance.now() - begun) / times;
  };
  const session = new it.Session(memory, MOST);
  session.line('set r3k2r/p1ppqpb1/bn2pnp1/3PN3/1p2P3/2N2Q1p/PPPBBPPP/R3K2R w KQkq - 0 1');
  const found = {};
  for (const line of ['moves', 'status', 'counts w', 'eval', 'fen']) found[line] = timed(2000, () => session.line(line));
  for (const call of ['moves', 'status', 'claims', 'checks', 'counts', 'evaluation', 'fen', 'castlings']) found[`${call}()`] = timed(2000, () => session[call]());
  session.line('new');
  found['best 6'] = timed(1, () => session.line('best 6'));
  done(found);
""")


# What one does until it is drawn: a key, or a move; each so often.
STEPPED = """
const [what, times, done] = arguments;
const { game, settled } = window.jatshegi;
const begins = (m) => {
  if (what !== 'play') {
    document.body.dispatchEvent(new KeyboardEvent('keydown', { key: what, bubbles: true, cancelable: true }));
    return;
  }
  document.getElementById('san').value = m;
  document.getElementById('sanform').requestSubmit();
};
(async () => {
  const found = [];
  for (let i = 0; i < times; i++) {
    await settled();
    await new Promise((go) => setTimeout(go, 400));
    const { fen, moves } = game.state;
    const begun = performance.now();
    begins(moves[0]);
    while (game.state.fen === fen) await new Promise((go) => { const { port1, port2 } = new MessageChannel(); port1.onmessage = go; port2.postMessage(0); });
    await settled();
    const drawn = performance.now() - begun;
    await new Promise((go) => requestAnimationFrame(() => setTimeout(go)));
    found.push([drawn, performance.now() - begun]);
  }
  done(found);
})().catch((error) => done([String(error)]));
"""


def long_games(plies):
    """Games of this number of plies, by the program: one line, and one with two more moves in each tenth place, each with a comment."""
    rng, made = random.Random(1), []
    for each in (0, 10):
        program = subprocess.Popen([CHESS, "board"], stdin=subprocess.PIPE, stdout=subprocess.PIPE, text=True)

        def say(*lines):
            for line in lines:
                program.stdin.write(f"{line}\n")
            program.stdin.flush()
            return [program.stdout.readline().strip() for _ in lines][-1]

        count = 0
        while count < plies:
            moves = say("moves").split()
            # (few pawns go on, so that the men stay)
            move = rng.choice([it for it in moves if it[1] not in "27" or rng.random() < 0.05] or moves)
            say(f"play {move}")
            if say("moves") == "none":
                say("delete")
                continue
            count += 1
            if each and count % each == 0:
                path = say("path")
                for other in [it for it in moves if it != move][:2]:
                    say("back", f"play {other}", "comment so it is", f"goto {path}")
        whole = program.communicate("pgn\n")[0]
        made.append(whole)
    return made


def step_speeds(page):
    """Prints how long a key and a move take in games of 4,000 plies, in milliseconds: the fastest and the median, until the page is drawn and until its frame is."""
    for name, text in zip(("a line", "a tree"), long_games(4000)):
        page.open()
        page.paste(text)
        page.until(lambda: page.script("return document.querySelectorAll('.move').length") >= 4000, "the game is read")
        page.closes()
        for place, key in (("start", "ArrowRight"), ("end", "ArrowLeft"), ("end", "play")):
            page.script("document.activeElement.blur()")
            page.click(place)
            page.browser.execute_async_script("window.jatshegi.settled().then(arguments[0])")
            found = page.browser.execute_async_script(STEPPED, key, 9)
            drawn, frame = (sorted(it) for it in zip(*found))
            print(f"{name} of 4,000 plies, {key} from the {place}: {drawn[0]:.0f}, {drawn[4]:.0f} ms; its frame {frame[0]:.0f}, {frame[4]:.0f} ms", flush=True)


# A file of many games is dropped: how long until all are listed.
LISTED = """
const [text, times, count, done] = arguments;
const given = new DataTransfer();
given.items.add(new File([new TextEncoder().encode(text.repeat(times))], 'games.pgn'));
(async () => {
  const begun = performance.now();
  document.body.dispatchEvent(new DragEvent('drop', { dataTransfer: given, bubbles: true, cancelable: true }));
  while (!document.getElementById('howmany').textContent.startsWith(`${count} games`)) await new Promise((go) => setTimeout(go, 5));
  done(performance.now() - begun);
})().catch((error) => done(String(error)));
"""


def list_speeds(page):
    """Prints how long it takes until a file of 20 MB is listed, and how busy the machine is beside."""
    with open(f"{runs.TOP}/crates/corpus/stdout", encoding="utf-8") as file:
        text = file.read()
    times = 20_000_000 // len(text)
    found = []
    for _ in range(3):
        page.open()
        found.append(page.browser.execute_async_script(LISTED, text, times, times * text.count("[Event ")))
    print(f"20 MB of games are listed after {min(found):.0f} ms", flush=True)


def ready_speeds(page):
    """Prints how long it takes from the request until the board is drawn and answers."""
    found = []
    for _ in range(15):
        page.open()
        found.append(page.script("return performance.getEntriesByName('ready')[0]?.startTime ?? performance.now()"))
    found.sort()
    print(f"the page is ready after {found[0]:.0f} ms, the median {found[7]:.0f}", flush=True)


def speeds():
    """Prints how long the module takes for some lines and calls in the page, in milliseconds, how long until the page is ready, steps and moves in long games, and
    a list of many games: in Chromium and in Firefox, with how busy the machine is."""
    import firefox
    setUpModule()
    for name, new in (("Chromium", new_browser), ("Firefox", firefox.Firefox)):
        with tempfile.TemporaryDirectory() as folder:
            browser = new(folder)
            page = Page(browser)
            page.open()
            print(f"{name}, beside a load of {os.getloadavg()[0]:.1f}", flush=True)
            ready_speeds(page)
            for line, milliseconds in browser.execute_async_script(SPEEDS).items():
                print(f"{line}: {milliseconds:.4f} ms")
            step_speeds(page)
            list_speeds(page)
            browser.quit()
    begun = time.monotonic()
    chess("board", given=b"new\nbest 6\n")
    print(f"best 6 by the program: {1000 * (time.monotonic() - begun):.0f} ms")
    tearDownModule()


if __name__ == "__main__":
    if sys.argv[1:] == ["pictures"]:
        pictures()
    elif sys.argv[1:] == ["speeds"]:
        speeds()
    else:
        unittest.main()

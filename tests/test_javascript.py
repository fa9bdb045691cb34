"""The package for JavaScript: its own tests by Node, and what `make packages` makes of it, used as a new user would.

Needs Node 18 or later; the package is installed by npm where that is there. Without Node these tests are skipped.
"""
import importlib.machinery
import importlib.util
import json
import os
import re
import shutil
import subprocess
import tarfile
import tempfile
import time
import unittest

import firefox
import runs
import test_web

PACKAGE = f"{runs.TOP}/web/jatshegi"
CHESS = f"{runs.TOP}/release/x86_64-linux/bin/chess"
# No test of the package takes so long, but for a machine with much else to do.
MOST_SECONDS = 20 * runs.MOST_SECONDS


def setUpModule():
    if not shutil.which("node"):
        raise unittest.SkipTest("node is not on the path")
    version = called("node", "--version").stdout
    if int(re.match(r"v(\d+)", version)[1]) < 18:
        raise unittest.SkipTest(f"this is Node {version.strip()}, and 18 is wanted")


def called(*words, **also):
    also["env"] = os.environ | {"CHESS": CHESS, "npm_config_offline": "true", "npm_config_audit": "false", "npm_config_update_notifier": "false"} | also.get("env", {})
    return subprocess.run(words, **{"stdin": subprocess.DEVNULL, "capture_output": True, "text": True, "timeout": MOST_SECONDS} | also)


def packed(folder):
    """The package for npm in that folder, by what tools/packages makes it with."""
    loader = importlib.machinery.SourceFileLoader("packages", f"{runs.TOP}/tools/packages")
    tool = importlib.util.module_from_spec(importlib.util.spec_from_loader("packages", loader))
    loader.exec_module(tool)
    words = tool.release_words()
    return tool.npm(folder, words["version"], words, tool.datetime.datetime.fromisoformat(words["date"]).replace(tzinfo=tool.datetime.timezone.utc))


# What a person does on the example's board.
BOARD = """
    window.board = () => document.querySelector('jatshegi-board');
    window.square = (name) => board().shadowRoot.querySelector(`[data-square=${name}]`);
    window.pointer = (a, b, more = {}) => {
      for (const [kind, name] of [['pointerdown', a], ['pointermove', b], ['pointerup', b]]) {
        const { x, y, width, height } = square(name).getBoundingClientRect();
        square(name).dispatchEvent(new PointerEvent(kind, { button: 0, clientX: x + width / 2, clientY: y + height / 2, bubbles: true, composed: true, cancelable: true, ...more }));
      }
    };
    window.key = (name, key, more = {}) => square(name).dispatchEvent(new KeyboardEvent('keydown', { key, bubbles: true, composed: true, cancelable: true, ...more }));
"""


class ItsOwnTests(unittest.TestCase):
    def assert_passes(self, name):
        ran = called("node", "--test", f"{PACKAGE}/test/{name}.test.js")
        self.assertEqual(ran.returncode, 0, ran.stdout[-6000:] + ran.stderr[-2000:])

    def test_there_is_no_other_file(self):
        names = {it.removesuffix(".test.js") for it in os.listdir(f"{PACKAGE}/test") if it.endswith(".test.js")}
        self.assertEqual(names, {it.removeprefix("test_of_") for it in dir(self) if it.startswith("test_of_")})

    def test_of_board(self):
        self.assert_passes("board")

    def test_of_beside(self):
        self.assert_passes("beside")

    def test_of_chessjs(self):
        self.assert_passes("chessjs")

    def test_of_examples(self):
        self.assert_passes("examples")


class BesideAPlainBoard(unittest.TestCase):
    def test_the_same_answers(self):
        """The board with which speeds are compared says the same as the package."""
        ran = called("node", f"{PACKAGE}/test/bench.mjs", "--check")
        self.assertEqual((ran.returncode, ran.stdout, ran.stderr), (0, "", ""))


class TheModule(unittest.TestCase):
    def test_its_functions_are_those_of_the_header(self):
        script = "console.log(WebAssembly.Module.exports(new WebAssembly.Module(require('fs').readFileSync('web/jatshegi.wasm'))).map((it) => it.name).join(' '))"
        names = called("node", "-e", script, cwd=runs.TOP).stdout.split()
        with open(f"{runs.TOP}/include/jatshegi.h", encoding="utf-8") as file:
            functions = re.findall(r"^(?:void|uint32_t) (jatshegi_\w+)\(", file.read(), re.M)
        self.assertGreater(len(functions), 80)
        self.assertEqual(sorted(names), sorted([*functions, "__heap_base", "memory"]))


class ThePackage(unittest.TestCase):
    def setUp(self):
        folder = tempfile.TemporaryDirectory()
        self.addCleanup(folder.cleanup)
        self.folder = folder.name

    def test_its_words(self):
        with open(f"{PACKAGE}/package.json", encoding="utf-8") as file:
            words = json.load(file)
        self.assertEqual(words["version"], runs.VERSION)
        self.assertFalse({"dependencies", "scripts", "peerDependencies", "optionalDependencies"} & set(words))
        named = [it for entry in words["exports"].values() for it in (entry.values() if isinstance(entry, dict) else [entry])]
        with tarfile.open(packed(self.folder)) as tar:
            there = set(tar.getnames())
        for name in [words["main"], words["types"], *named]:
            self.assertIn(f"package/{name.removeprefix('./')}", there)

    def test_it_holds_what_npm_would_pack_and_the_released_module(self):
        with tarfile.open(packed(self.folder)) as tar:
            names = set(tar.getnames())
            module = tar.extractfile("package/src/jatshegi.wasm").read()
        with open(f"{runs.TOP}/web/jatshegi.wasm", "rb") as file:
            self.assertTrue(module == file.read())
        if not shutil.which("npm"):
            self.skipTest("npm is not on the path")
        # (in the clone the module is the page's)
        copy = shutil.copytree(PACKAGE, f"{self.folder}/js")
        shutil.copy(f"{runs.TOP}/web/jatshegi.wasm", f"{copy}/src")
        with tarfile.open(packed(self.folder)) as tar, open(f"{copy}/src/module.js", "wb") as file:
            file.write(tar.extractfile("package/src/module.js").read())
        for name in ("LICENSE-APACHE", "LICENSE-MIT"):
            shutil.copy(f"{runs.TOP}/{name}", copy)
        ran = called("npm", "pack", "--json", "--dry-run", cwd=copy, env={"HOME": self.folder})
        self.assertEqual(ran.returncode, 0, ran.stderr)
        self.assertEqual({f"package/{it['path']}" for it in json.loads(ran.stdout)[0]["files"]}, names)

    def test_two_of_them_have_the_same_bytes(self):
        os.mkdir(f"{self.folder}/other")
        with open(packed(self.folder), "rb") as one, open(packed(f"{self.folder}/other"), "rb") as other:
            self.assertTrue(one.read() == other.read())

    def test_a_new_user(self):
        """Installed from the file alone, without a registry, into a project: its examples say what they are to say."""
        package = packed(self.folder)
        project = f"{self.folder}/project"
        os.mkdir(project)
        if shutil.which("npm"):
            ran = called("npm", "install", package, "--offline", cwd=project, env={"HOME": self.folder})
            self.assertEqual(ran.returncode, 0, ran.stdout + ran.stderr)
        else:
            with tarfile.open(package) as tar:
                tar.extractall(f"{self.folder}/unpacked")
            shutil.copytree(f"{self.folder}/unpacked/package", f"{project}/node_modules/jatshegi")
        there = f"{project}/node_modules/jatshegi"
        self.assertFalse([name for at, folders, names in os.walk(there) for name in folders + names if os.path.islink(f"{at}/{name}")])
        for name in sorted(it for it in os.listdir(f"{there}/examples") if it.endswith(".mjs")):
            with self.subTest(example=name):
                shutil.copy(f"{there}/examples/{name}", project)
                with open(f"{project}/{name}", encoding="utf-8") as file:
                    said = re.findall(r"^//> ?(.*?) *$", file.read(), re.M)
                ran = called("node", name, cwd=project)
                self.assertEqual(ran.stderr, "")
                self.assertEqual([it.rstrip() for it in ran.stdout.rstrip().split("\n")], said)

    def unpacked(self):
        """A project's folder with the package in it."""
        with tarfile.open(packed(self.folder)) as tar:
            tar.extractall(self.folder)
        os.mkdir(f"{self.folder}/node_modules")
        os.rename(f"{self.folder}/package", f"{self.folder}/node_modules/jatshegi")
        return self.folder

    def test_by_require(self):
        numbers = [int(it) for it in re.findall(r"\d+", called("node", "--version").stdout)]
        if numbers < [20, 19, 0] or [22] <= numbers < [22, 12, 0]:
            self.skipTest(f"this is Node {'.'.join(map(str, numbers))}, whose require reads no ES modules")
        for name in ("jatshegi", "jatshegi/inline"):
            ran = called("node", "-e", f"console.log(new (require('{name}').Chess)().moves().length)", cwd=self.unpacked() if name == "jatshegi" else self.folder)
            self.assertEqual((ran.stdout, ran.stderr), ("20\n", ""))

    def test_by_a_bundler(self):
        """Debian's esbuild puts a program and the package in one file, in each form; the file says the same by Node, which has no package beside it."""
        if not shutil.which("esbuild"):
            self.skipTest("esbuild is not on the path")
        project = self.unpacked()
        ways = {"import { Chess } from 'jatshegi/inline'; import 'jatshegi/board';": ["--platform=browser"], "import { Chess } from 'jatshegi/inline';": ["--platform=browser"], "import { Chess } from 'jatshegi';": ["--platform=browser", "--conditions=worker"], "const { Chess } = require('jatshegi');": ["--platform=browser"],
                "import { Chess, start } from 'jatshegi/core'; import wasm from 'jatshegi/jatshegi.wasm'; start(wasm);": ["--platform=browser", "--loader:.wasm=binary"]}
        for first, words in ways.items():
            with open(f"{project}/program.js", "w", encoding="utf-8") as file:
                file.write(f"{first}\nconst chess = new Chess();\nchess.move('e4');\nconsole.log(chess.fen());\n")
            for form in ("iife", "cjs", "esm"):
                with self.subTest(first=first, form=form), tempfile.TemporaryDirectory() as alone:
                    ran = called("esbuild", "program.js", "--bundle", "--target=es2020", f"--format={form}", f"--outfile={alone}/bundle.{'mjs' if form == 'esm' else 'cjs'}", "--log-level=warning", *words, cwd=project)
                    self.assertEqual((ran.returncode, ran.stderr), (0, ""))
                    ran = called("node", *os.listdir(alone), cwd=alone)
                    self.assertEqual((ran.stdout, ran.stderr), ("rnbqkbnr/pppppppp/8/8/4P3/8/PPPP1PPP/RNBQKBNR b KQkq e3 0 1\n", ""))

    def test_its_types(self):
        if not shutil.which("tsc"):
            self.skipTest("tsc is not on the path (Debian's node-typescript)")
        shutil.copy(f"{PACKAGE}/test/use.mts", self.unpacked())
        for ways in (["node16", "node16"], ["es2022", "node"]):
            words = ["--noEmit", "--strict", "--target", "es2022", "--lib", "es2022,dom,dom.iterable", "--module", ways[0], "--moduleResolution", ways[1]]
            ran = called("tsc", *words, "use.mts", cwd=self.folder)
            self.assertEqual((ran.returncode, ran.stdout), (0, ""))

    def test_what_has_not_been_begun_says_so(self):
        ran = called("node", "--input-type=module", "-e", "import { Chess } from './src/core.js'; try { new Chess().fen() } catch (error) { console.log(error.code) }", cwd=PACKAGE)
        self.assertEqual(ran.stdout, "Module\n", ran.stderr)

    def test_the_module_by_itself(self):
        """What a worker does, that has the module already compiled: without the file beside the package."""
        words = "import { readFile } from 'node:fs/promises'; import { Chess, start } from './src/core.js'; start(new WebAssembly.Module(await readFile('../jatshegi.wasm'))); console.log(new Chess().moves().length)"
        ran = called("node", "--input-type=module", "-e", words, cwd=PACKAGE)
        self.assertEqual(ran.stdout, "20\n", ran.stderr)


class InBrowsers(unittest.TestCase):
    """The package, unpacked, in a page of another: the same answers as by Node."""

    def browser(self, new_browser):
        # (a browser writes to its folder until it has ended, so that goes after it)
        folder = tempfile.mkdtemp()
        self.addCleanup(shutil.rmtree, folder, ignore_errors=True)
        with tarfile.open(packed(folder)) as tar:
            tar.extractall(folder)
        shutil.copy(f"{PACKAGE}/test/anywhere.js", folder)
        with open(f"{folder}/index.html", "w", encoding="utf-8") as file:
            file.write("<!doctype html><title>a page</title>")
        server = test_web.serve(folder)
        self.addCleanup(test_web.stop, server)
        browser = new_browser(folder)
        self.addCleanup(browser.quit)
        browser.get(f"http://127.0.0.1:{server.server_port}/index.html")
        return folder, browser

    def assert_hears(self, new_browser):
        """A worker with the package answers a message that is posted as soon as there is a worker."""
        folder, browser = self.browser(new_browser)
        with open(f"{folder}/worker.js", "w", encoding="utf-8") as file:
            file.write("import { Chess } from '/package/src/inline.js';\nonmessage = ({ data }) => postMessage(new Chess(data).moves().length);\n")
        self.assertEqual(browser.execute_async_script("""
            const done = arguments[0];
            const it = new Worker('/worker.js', { type: 'module' });
            it.onmessage = ({ data }) => done(data);
            it.onerror = (event) => done(event.message);
            it.postMessage('8/8/8/8/8/8/8/K6k w - - 0 1');
            setTimeout(() => done('no answer'), 60000);
        """), 3)
        # (and so does the page itself)
        self.assertEqual(browser.execute_async_script("const done = arguments[0]; import('/package/src/inline.js').then(({ Chess }) => done(new Chess().moves().length), (error) => done(String(error)))"), 20)

    def answers(self, new_browser):
        return self.browser(new_browser)[1].execute_async_script("""
            const done = arguments[0];
            Promise.all([import('/package/src/index.js'), import('/anywhere.js')]).then(async ([it, { default: all }]) => done(await all(it))).catch((error) => done(String(error)));
        """)

    def wanted(self):
        ran = called("node", "--input-type=module", "-e", "import * as it from './src/node.js'; import all from './test/anywhere.js'; console.log(await all(it));", cwd=PACKAGE)
        self.assertEqual(ran.stderr, "")
        return ran.stdout.rstrip("\n")

    def assert_same(self, new_browser):
        got, wanted = self.answers(new_browser), self.wanted()
        self.assertTrue(wanted.startswith("[") and len(json.loads(wanted)) > 200)
        self.assertEqual(got, wanted)

    def assert_shows(self, new_browser):
        """The example with a board: by mouse, by keys and by touch the board says what a person does, and shows what it is told."""
        _, browser = self.browser(new_browser)
        port = browser.execute_script("return location.port")
        browser.get(f"http://127.0.0.1:{port}/package/examples/board.html")
        browser.execute_script(BOARD)

        def until(script, wanted):
            end = time.monotonic() + 30
            while (found := browser.execute_script(f"return {script}")) != wanted:
                self.assertLess(time.monotonic(), end, f"{script}: {found}, not {wanted}")
                time.sleep(0.02)

        fen, said = "board().fen.split(' ')[0]", "document.querySelector('p').textContent"
        until(fen, "rnbqkbnr/pppppppp/8/8/8/8/PPPPPPPP/RNBQKBNR")
        until("board().shadowRoot.querySelectorAll('[role=grid] [role=gridcell] .man').length", 32)
        until("square('e2').getAttribute('aria-label')", "e2, white pawn")
        until("getComputedStyle(square('a1')).backgroundColor", "rgb(148, 173, 155)")
        # (a drag, two clicks, touch, keys)
        browser.execute_script("pointer('e2', 'e4')")
        until(said, "e4")
        browser.execute_script("pointer('e7', 'e7'); pointer('e5', 'e5')")
        until(said, "e4 e5")
        browser.execute_script("pointer('g1', 'f3', { pointerType: 'touch' })")
        until(said, "e4 e5 Nf3")
        until("square('f3').classList.contains('last')", True)
        browser.execute_script("board().focus(); square('g8').focus(); key('g8', 'Enter'); key('g8', 'ArrowDown'); key('g7', 'ArrowDown', { shiftKey: true }); key('g6', 'ArrowLeft'); key('f6', ' ')")
        until(said, "e4 e5 Nf3 Nf6")
        # (what is no move is said to be none)
        browser.execute_script("window.told = []; for (const kind of ['move', 'refused', 'shape']) board().addEventListener(kind, ({ detail }) => told.push([kind, detail])); pointer('f3', 'f4')")
        until("JSON.stringify(told)", '[["refused",{"lan":"f3f4","from":"f3","to":"f4"}]]')
        until(said, "e4 e5 Nf3 Nf6")
        # (arrows and circles, but where nobody may draw)
        browser.execute_script("pointer('e4', 'e5', { button: 2 }); pointer('d5', 'd5', { button: 2, shiftKey: true })")
        until("board().shapes.join(' ')", "Ge4e5 Rd5")
        until("board().shadowRoot.querySelectorAll('.shapes > *').length", 2)
        browser.execute_script("board().draws = false")
        until("[board().hasAttribute('draws'), told.length].join()", "false,3")
        browser.execute_script("setTimeout(() => { pointer('e4', 'e5', { button: 2 }); window.tried = true; })")
        until("[window.tried, told.length].join()", "true,3")
        # (turned, at another size)
        browser.execute_script("board().turned = true; board().style.maxWidth = '160px'")
        until("[square('h1').getBoundingClientRect().top < square('h8').getBoundingClientRect().top, board().offsetHeight, board().shadowRoot.querySelector('.place').style.getPropertyValue('--board')].join()", "true,160,160px")
        browser.execute_script("board().turned = false")
        # (a promotion is chosen at its square, or given up)
        browser.execute_script("board().fen = '8/P6k/8/8/8/8/8/K7 w - - 0 1'; board().moves = ['a7a8q', 'a7a8n', 'a1b1']; told.length = 0")
        until("square('a7').getAttribute('aria-label')", "a7, white pawn")
        browser.execute_script("pointer('a7', 'a8')")
        promotions = "[...board().shadowRoot.querySelectorAll('.promotion button')].map((it) => it.getAttribute('aria-label')).join()"
        until(promotions, "white queen,white knight")
        browser.execute_script("board().shadowRoot.activeElement.dispatchEvent(new KeyboardEvent('keydown', { key: 'Escape', bubbles: true }))")
        until(f"[{promotions}, told.length].join('|')", "|0")
        browser.execute_script("pointer('a7', 'a8'); board().shadowRoot.querySelectorAll('.promotion button')[1].click()")
        until("JSON.stringify(told)", '[["move",{"lan":"a7a8n","from":"a7","to":"a8"}]]')
        # (attributes are properties, and an element is put elsewhere)
        self.assertEqual(browser.execute_script("""
            const it = document.createElement('jatshegi-board');
            it.setAttribute('moves', 'e2e4 d2d4');
            document.body.prepend(it);
            document.body.append(it);
            it.last = 'e2e4';
            it.shapes = ['x', 'Gz9', 'Ga1', 'Ga1b', 'Ra1b2'];
            it.remove();
            document.body.append(it);
            const shapes = it.shadowRoot.querySelectorAll('.shapes > *').length;
            const found = [it.fen, it.moves.join(), it.getAttribute('last'), it.turned, it.shadowRoot.querySelectorAll('.man').length, shapes];
            it.remove();
            return found;
        """), ["", "e2e4,d2d4", "e2e4", False, 32, 2])

    def test_in_chromium(self):
        test_web.wants_browser()
        self.assert_same(test_web.new_browser)
        self.assert_hears(test_web.new_browser)
        self.assert_shows(test_web.new_browser)

    def test_in_firefox(self):
        test_web.wants_browser()
        if not shutil.which("firefox-esr"):
            self.skipTest("firefox-esr is not installed")
        self.assert_same(firefox.Firefox)
        self.assert_hears(firefox.Firefox)
        self.assert_shows(firefox.Firefox)


if __name__ == "__main__":
    unittest.main()

"""How the page looks and is used: its sizes and themes, its marks and contrasts, what is announced, and where the focus is."""
import tempfile
import shutil
import time
import unittest

import firefox
import test_web

setUpModule, tearDownModule = test_web.setUpModule, test_web.tearDownModule

SIZES = {"phone": (360, 740), "tablet": (768, 1024), "laptop": (1024, 768), "desk": (1440, 900), "wide": (2560, 1440), "on its side": (844, 390), "twice as large": (720, 450)}
# Windows of phones upright and on their side, with the browser's bars, and of pages shown larger.
SMALL = [(320, 256), (320, 480), (360, 560), (375, 553), (390, 664), (427, 267), (480, 320), (512, 320), (560, 380), (568, 320), (576, 460), (580, 560), (600, 400), (600, 640), (640, 400),
         (667, 375), (720, 450), (800, 700), (900, 900), (1280, 600), (1280, 800)]
GAME = ('[White "Caruana, Fabiano"]\n[Black "Nakamura, Hikaru"]\n[WhiteElo "2804"]\n[BlackElo "2802"]\n[Result "1-0"]\n\n1. e4 e5 2. Nf3 Nc6 3. Bc4 {The Italian.} Bc5 (3... Nf6 4. Ng5 $5 d5'
        ' 5. exd5 Na5 $1 {and not 5... Nxd5} (5... Nd4 6. c3)) 4. b4 $1 Bxb4 5. c3 Ba5 6. d4 exd4 7. O-O Nge7 8. cxd4 d5 9. exd5 Nxd5 10. Qb3 Be6 11. Qxb7 1-0')

# The contrast of each text with its background, and of each control's edge or icon, that is too low (WCAG 2.2, 1.4.3 and 1.4.11).
FAINT = """
    const light = (part) => part <= 0.03928 ? part / 12.92 : ((part + 0.055) / 1.055) ** 2.4;
    const colour = (text) => text.match(/[\\d.]+/g).map(Number);
    const bright = ([r, g, b]) => 0.2126 * light(r / 255) + 0.7152 * light(g / 255) + 0.0722 * light(b / 255);
    const over = ([r, g, b, a = 1], under) => [r, g, b].map((it, i) => it * a + under[i] * (1 - a));
    const ground = (it) => {
      const layers = [];
      for (; it; it = it.parentElement) {
        const c = colour(getComputedStyle(it).backgroundColor);
        layers.push(c);
        if (c.length < 4 || c[3] === 1) break;
      }
      return layers.reverse().reduce((under, c) => over(c, under), [255, 255, 255]);
    };
    const contrast = (a, b) => { const [x, y] = [bright(a), bright(b)]; return (Math.max(x, y) + 0.05) / (Math.min(x, y) + 0.05); };
    const named = (it, found) => `${it.outerHTML.slice(0, 90)} ${found.toFixed(2)}`;
    const all = [...document.querySelectorAll('body *')].filter((it) => it.checkVisibility() && !it.closest('[aria-disabled=true], option, .away'));
    const low = [];
    for (const it of all) {
      const style = getComputedStyle(it);
      const hasText = [...it.childNodes].some((node) => node.nodeType === 3 && node.data.trim()) || (it.matches('input, textarea') && it.value);
      if (hasText && !it.closest('svg')) {
        const large = parseFloat(style.fontSize) >= 24 || (parseFloat(style.fontSize) >= 18.66 && style.fontWeight >= 700);
        const found = contrast(over(colour(style.color), ground(it)), ground(it));
        if (found < (large ? 3 : 4.5)) low.push(named(it, found));
      }
      if (it.matches('input[placeholder], textarea[placeholder]')) {
        const { color, opacity } = getComputedStyle(it, '::placeholder');
        const found = contrast(over([...colour(color).slice(0, 3), Number(opacity)], ground(it)), ground(it));
        if (found < 4.5) low.push(`placeholder of ${named(it, found)}`);
      }
      if (it.matches('.icon')) {
        const found = contrast(colour(style.stroke), ground(it));
        if (found < 3) low.push(named(it, found));
      }
      if (it.matches('input, select, textarea') && style.opacity !== '0') {
        const found = contrast(colour(style.borderTopColor), ground(it.parentElement));
        if (found < 3) low.push(named(it, found));
      }
    }
    return low;
"""

# The focus's ring beside what it is on, and the marks of the board on both kinds of squares.
MARKS = """
    const light = (part) => part <= 0.03928 ? part / 12.92 : ((part + 0.055) / 1.055) ** 2.4;
    const bright = ([r, g, b]) => 0.2126 * light(r / 255) + 0.7152 * light(g / 255) + 0.0722 * light(b / 255);
    const contrast = (a, b) => { const [x, y] = [bright(a), bright(b)]; return (Math.max(x, y) + 0.05) / (Math.min(x, y) + 0.05); };
    const probe = document.createElement('i');
    document.body.append(probe);
    const colour = (text) => { probe.style.color = text; return getComputedStyle(probe).color.match(/[\\d.]+/g).map(Number); };
    const of = (name) => colour(getComputedStyle(document.documentElement).getPropertyValue(name));
    const over = ([r, g, b, a = 1], under) => [r, g, b].map((it, i) => it * a + under[i] * (1 - a));
    const found = { 'focus on the page': contrast(of('--focus'), of('--page')), 'focus on a card': contrast(of('--focus'), of('--card')) };
    const target = getComputedStyle(document.querySelector('.square.target'), '::after');
    const dot = [...colour(target.backgroundColor).slice(0, 3), Number(target.opacity)];
    const tint = (name) => {
      const square = document.querySelector('[data-square=h6]');
      square.classList.add(name);
      const text = getComputedStyle(square).boxShadow.match(/rgba?\\([^)]*\\)/)[0];
      square.classList.remove(name);
      return colour(text);
    };
    for (const kind of ['--light', '--dark']) {
      const square = of(kind);
      found[`a target on ${kind}`] = contrast(over(dot, square), square);
      const [black, white] = [contrast([13, 17, 16], square), contrast([255, 255, 255], [13, 17, 16])];
      // (the ring is black with white within: one of them stands out of any square)
      found[`the ring on ${kind}`] = Math.max(black, white);
      found[`coordinates on ${kind}`] = contrast([16, 22, 15], square) / 1.5;
      for (const name of ['last', 'chosen']) found[`coordinates on ${name} ${kind}`] = contrast([16, 22, 15], over(tint(name), square)) / (name === 'last' ? 1.5 : 1);
    }
    probe.remove();
    return found;
"""


# Where what is shown breaks a rule of docs/WEB.md, "For everyone": the rule, and what breaks it.
BROKEN = """
    const found = [];
    const breaks = (rule, it) => found.push(`${rule}: ${typeof it === 'string' ? it : it.outerHTML.slice(0, 120)}`);
    const all = [...document.querySelectorAll('*')];
    const shown = all.filter((it) => document.body.contains(it) && it.checkVisibility({ visibilityProperty: true }));
    const textOf = (id) => document.getElementById(id)?.textContent.trim() ?? '';
    const nameOf = (it) => it.getAttribute('aria-label') || (it.getAttribute('aria-labelledby') ?? '').split(' ').map(textOf).join(' ').trim()
      || [...(it.labels ?? [])].map((label) => label.textContent.trim()).join(' ') || (it.matches('input, select, textarea') ? '' : it.textContent.trim());
    const CONTROLS = 'a[href], button, input, select, textarea, summary, iframe, [tabindex]';
    // 1.1.1, 2.5.3, 3.3.2, 4.1.2: names
    for (const it of shown.filter((it) => it.matches(CONTROLS) && !it.matches('main, dialog'))) if (!nameOf(it)) breaks('a control has a name', it);
    for (const it of shown.filter((it) => it.matches('dialog, [role=grid], [role=group], section'))) if (!nameOf(it).length || !(it.hasAttribute('aria-label') || it.hasAttribute('aria-labelledby'))) breaks('a part has a name', it);
    for (const it of shown.filter((it) => it.matches('img:not([alt])'))) breaks('a picture has a text', it);
    for (const it of shown.filter((it) => it.matches('svg') && !it.closest('[aria-hidden=true], [role=img], button, [aria-label]'))) breaks('a picture has a text or is hidden', it);
    // 2.4.2, 3.1.1: the page says what it is, and in which language
    if (!document.title.trim()) breaks('the page has a title', 'title');
    if (!document.documentElement.lang) breaks('the page has a language', 'html');
    const roleOf = (it) => it.getAttribute('role');
    // 1.3.1, 4.1.2: roles, states and what they refer to
    const ids = all.map((it) => it.id).filter(Boolean);
    for (const id of ids.filter((id, i) => ids.indexOf(id) !== i)) breaks('an id occurs once', id);
    for (const it of all) {
      for (const name of ['aria-labelledby', 'aria-describedby', 'aria-controls', 'aria-owns', 'for']) for (const id of (it.getAttribute(name) ?? '').split(' ').filter(Boolean)) if (!document.getElementById(id)) breaks('what is referred to is there', it);
      if (it.hasAttribute('aria-sort') && (roleOf(it) !== 'columnheader' || !['none', 'ascending', 'descending'].includes(it.getAttribute('aria-sort')))) breaks('a column says how it is sorted', it);
      for (const name of ['aria-pressed', 'aria-selected', 'aria-disabled', 'aria-expanded', 'aria-hidden']) if (it.hasAttribute(name) && !['true', 'false'].includes(it.getAttribute(name))) breaks('a state is true or false', it);
      const role = it.getAttribute('role');
      if (role && !['grid', 'row', 'gridcell', 'group', 'alert', 'status', 'img', 'presentation', 'dialog', 'tree', 'treeitem', 'list', 'listitem', 'meter', 'toolbar', 'none', 'table', 'rowgroup', 'columnheader', 'cell'].includes(role)) breaks('a role is one of ARIA', it);
      if (role === 'row' && !it.parentElement.matches('[role=grid], [role=table] [role=rowgroup]')) breaks('a row is in a grid', it);
      if (role === 'rowgroup' && !it.closest('[role=table]')) breaks('rows are in a table', it);
      if (['gridcell', 'cell', 'columnheader'].includes(role) && !it.parentElement.matches('[role=row]')) breaks('a cell is in a row', it);
      if (it.matches('li') && !it.parentElement.matches('ul, ol, menu')) breaks('an item is in a list', it);
    }
    // 2.1.1, 2.4.3: the order of the keys is that of the page
    for (const it of all.filter((it) => it.tabIndex > 0)) breaks('no place in the order of its own', it);
    for (const it of shown.filter((it) => it.matches('[aria-hidden=true] *, [aria-hidden=true]') && it.matches(CONTROLS) && it.tabIndex >= 0)) breaks('what is hidden has no focus', it);
    for (const it of shown.filter((it) => it.matches(CONTROLS) && it.parentElement.closest('button, a[href]'))) breaks('no control in a control', it);
    // 2.5.8: targets of 24 pixels, but for those in a line of text
    for (const it of shown.filter((it) => it.matches('button, select, summary, input:not([type=checkbox])') && !it.closest('#moves, .away'))) {
      const { width, height } = it.getBoundingClientRect();
      if (width && (width < 24 || height < 24)) breaks(`a target has 24 pixels (${width.toFixed(0)} x ${height.toFixed(0)})`, it);
    }
    return found;
"""

# Something wrong by each of these rules.
WRONG = {
    "a control has a name": "<button></button>", "a part has a name": "<section>a</section>", "a picture has a text": '<img src="icon.svg">', "an id occurs once": '<p id="board"></p>',
    "what is referred to is there": '<p aria-describedby="nothing">a</p>', "a state is true or false": '<button aria-pressed="yes">a</button>', "a role is one of ARIA": '<p role="chess">a</p>',
    "a row is in a grid": '<p role="row">a</p>', "a cell is in a row": '<p role="gridcell">a</p>', "rows are in a table": '<p role="rowgroup">a</p>', "a column says how it is sorted": '<p aria-sort="up">a</p>', "an item is in a list": "<div><li>a</li></div>",
    "no place in the order of its own": '<button tabindex="3">a</button>', "what is hidden has no focus": '<p aria-hidden="true"><button>a</button></p>',
    "no control in a control": '<a href="#"><span tabindex="0">a</span></a>', "a target has 24 pixels": '<button class="small">a</button>',
}


class Looking:
    def setUp(self):
        self.page.open()

    def is_firefox(self):
        return isinstance(self.browser, firefox.Firefox)

    def resize(self, width, height):
        if self.is_firefox():
            self.browser.set_size(width, height)
            # (the window's edges and bars take some)
            had = self.page.script("return [innerWidth, innerHeight]")
            self.browser.set_size(2 * width - had[0], 2 * height - had[1])
        else:
            self.browser.execute_cdp_cmd("Emulation.setDeviceMetricsOverride", {"width": width, "height": height, "deviceScaleFactor": 1, "mobile": False})

    def theme(self, name):
        self.page.script("const it = document.getElementById('theme'); it.value = arguments[0]; it.dispatchEvent(new Event('change'))", name)

    def read(self, text=GAME):
        self.page.paste(text)
        self.page.until(lambda: self.page.moves, "the game is read")
        self.page.script("document.getElementById('end').click()")
        self.page.until(lambda: self.page.script("return document.getElementById('end').getAttribute('aria-disabled')") == "true", "the end is shown")

    def press(self, *keys):
        if self.is_firefox():
            self.browser.perform(*keys)
            return
        from selenium.webdriver import ActionChains
        chain = ActionChains(self.browser)
        for key in keys:
            chain.key_down(key)
        for key in reversed(keys):
            chain.key_up(key)
        chain.perform()

    def test_the_board_is_first_and_the_moves_are_in_sight_in_each_size(self):
        page = self.page
        seen = """
            const rect = (it) => { const r = it.getBoundingClientRect(); return [r.left, r.top, r.right, r.bottom].map(Math.round); };
            return { window: [innerWidth, innerHeight], width: document.documentElement.scrollWidth, board: rect(document.getElementById('board')),
              current: rect(document.querySelector('[aria-current=step]')), tools: rect(document.querySelector('.tools')), moves: rect(document.getElementById('moves')) };
        """
        self.read()
        for name, (width, height) in SIZES.items():
            self.resize(width, height)
            for is_analysing in (False, True):
                page.script("document.body.classList.toggle('analysing', arguments[0])", is_analysing)
                # (the list of moves follows its size)
                page.until(lambda: self.holds(page.script(seen)), f"{name}: {page.script(seen)}")
                found = page.script(seen)
                width, height = found["window"]
                left, top, right, bottom = found["board"]
                self.assertLessEqual(found["width"], width, name)
                self.assertTrue(abs((right - left) - (bottom - top)) <= 1 and bottom <= height, (name, found))
                # as large as the window lets it: the height but for the players and the top, or the width but for a scroll bar, in a narrow one
                room = height - 170 if width >= height else min(width - 40, height - 400)
                self.assertGreaterEqual(right - left, min(room, width - 300 if width >= height else width), (name, found))

    def test_the_board_has_most_of_a_small_window(self):
        page = self.page
        seen = """
            const inside = (it, [left, right]) => { const r = it.getBoundingClientRect(); return r.left >= left - 1 && r.right <= right + 1; };
            const { left, right, width, height } = document.getElementById('board').getBoundingClientRect();
            const tools = document.querySelector('.tools').getBoundingClientRect();
            const cut = [...document.querySelectorAll('main *')].filter((it) => it.checkVisibility() && !it.closest('.away') && !inside(it, [0, document.documentElement.clientWidth]));
            cut.push(...[...document.querySelectorAll('.tools > .tool')].filter((it) => !inside(it, [tools.left, tools.right])));
            return { window: [innerWidth, innerHeight], board: [width, height], isWide: document.documentElement.scrollWidth > document.documentElement.clientWidth, cut: cut.map((it) => it.outerHTML.slice(0, 80)) };
        """

        def is_well(found):
            least = max(192, 0.7 * min(found["window"]))
            return min(found["board"]) >= least - 1 and abs(found["board"][0] - found["board"][1]) <= 1 and not found["isWide"] and not found["cut"]

        self.read()
        for size in SMALL:
            self.resize(*size)
            page.until(lambda: is_well(page.script(seen)), f"{size}: {page.script(seen)}")

    def test_the_box_for_a_promotion_is_at_its_square(self):
        page = self.page
        for width, height in [(1280, 800), (360, 740), (320, 480)]:
            self.resize(width, height)
            for fen, move in (("7k/P7/8/8/8/8/8/K7 w - - 0 1", ("a7", "a8")), ("k7/8/8/8/8/8/7p/K7 b - - 0 1", ("h2", "h1"))):
                page.set_fen(fen)
                page.squares(*move)
                page.until(lambda: page.script("return document.getElementById('promotion').open"), "the promotion is asked for")
                seen = page.script("""
                    const [a, b] = [document.getElementById('promotion'), document.querySelector(`[data-square=${arguments[0]}]`)].map((it) => it.getBoundingClientRect());
                    const gap = (from, to, low, high) => Math.max(0, low - to, from - high);
                    return [a.left >= 0 && a.right <= innerWidth && a.top >= 0 && a.bottom <= innerHeight, a.width < 320, Math.max(gap(a.left, a.right, b.left, b.right), gap(a.top, a.bottom, b.top, b.bottom)) < 8];
                """, move[1])
                self.assertEqual(seen, [True] * 3, (width, move))
                page.closes()

    def holds(self, found):
        """The current move lies within the list, and both it and the tools within the window."""
        (_, top, _, bottom), (_, low, _, high) = found["current"], found["moves"]
        return low - 1 <= top and bottom <= high + 1 and bottom <= found["window"][1] and found["tools"][3] <= found["window"][1]

    def test_contrasts(self):
        page = self.page
        for theme in ("light", "dark"):
            page.open()
            self.theme(theme)
            self.read()
            page.type("san", "e9")
            page.until(lambda: page.text("told"), "it is refused")
            page.choose("heat", "counts w")
            page.click("analyse")
            page.until(lambda: page.script("return document.querySelectorAll('#lines li').length"), "a line is there")
            self.assertEqual("\n".join(page.script(FAINT)), "", theme)
            for box in ("menu", "gamesbox", "pastebox", "fenbox", "tagbox", "settings", "keysbox"):
                page.script("document.querySelector('dialog[open]')?.close(); document.querySelector(`[data-opens=${arguments[0]}]`).click()", box)
                self.assertEqual("\n".join(page.script(FAINT)), "", (theme, box))
            page.closes()
            page.set_fen("4k3/8/8/8/8/8/8/4K2R w K - 0 1")
            page.square("h1").click()
            for name, contrast in page.script(MARKS).items():
                self.assertGreaterEqual(contrast, 3, (theme, name))

    def test_no_man_covers_a_coordinate(self):
        page = self.page
        covered = """
            const done = arguments[0];
            import('./jatshegi/src/men.js').then(({ man }) => done([...document.querySelectorAll('.at')].flatMap((at) => {
              const square = at.parentElement;
              const text = document.createRange();
              text.selectNodeContents(at);
              const a = text.getBoundingClientRect();
              const size = square.getBoundingClientRect();
              // (each corner of the text, in the units of the men's pictures)
              const points = [[a.left, a.top + a.height * .15], [a.right, a.top + a.height * .15], [a.left, a.bottom - a.height * .15], [a.right, a.bottom - a.height * .15]];
              return ['p', 'r', 'n', 'b', 'q', 'k'].filter((letter) => [...man(letter).children].some((shape) => {
                if (shape.classList.contains('mark')) return false;
                const picture = document.createElementNS('http://www.w3.org/2000/svg', 'svg');
                picture.setAttribute('viewBox', '0 0 40 40');
                picture.setAttribute('class', 'man');
                square.append(picture);
                const it = shape.cloneNode();
                picture.append(it);
                const to = picture.getScreenCTM().inverse();
                const is = points.some(([x, y]) => it.isPointInFill(new DOMPoint(x, y).matrixTransform(to)) || it.isPointInStroke(new DOMPoint(x, y).matrixTransform(to)));
                picture.remove();
                return is;
              })).map((letter) => `${square.dataset.square} ${at.textContent} ${letter} ${Math.round(size.width)}`);
            }))).catch((error) => done(String(error)));
        """
        for name in ("phone", "desk"):
            self.resize(*SIZES[name])
            self.assertEqual(self.browser.execute_async_script(covered), [], name)

    def test_the_board_editor_is_in_the_window(self):
        page = self.page
        seen = """
            const [box, board] = ['fenbox', 'editboard'].map((it) => document.getElementById(it).getBoundingClientRect());
            return [box.left >= 0 && box.right <= innerWidth && box.top >= 0 && box.bottom <= innerHeight, board.left >= box.left && board.right <= box.right,
              Math.abs(board.width - board.height) <= 1, board.width >= 180, document.getElementById('fenbox').scrollWidth <= document.getElementById('fenbox').clientWidth];
        """
        for name, (width, height) in SIZES.items():
            self.resize(width, height)
            page.shows("editempty")
            page.until(lambda: page.script("return document.querySelectorAll('[data-edit]').length") == 64, "the editor is laid out")
            self.assertEqual(page.script(seen), [True] * 5, name)
            self.assertEqual(page.script("return document.querySelectorAll('#editboard [tabindex=\"0\"]').length"), 1)
            page.closes()

    def test_the_last_move_and_a_check_are_marked(self):
        page = self.page

        def marked(kind):
            return page.script("return [...document.querySelectorAll(`.square.${arguments[0]}`)].map((it) => it.dataset.square).sort()", kind)

        page.play("e4", "f6", "Qh5")
        self.assertEqual((marked("last"), marked("checked"), marked("checking")), (["d1", "h5"], ["e8"], ["h5"]))
        page.script("document.getElementById('back').click()")
        page.until(lambda: marked("last") == ["f6", "f7"], "the move before is marked")
        self.assertEqual((marked("checked"), marked("checking")), ([], []))
        page.set_fen("r3k2r/8/8/8/8/8/8/R3K2R w KQkq - 0 1")
        self.assertEqual(marked("last"), [])
        page.play("O-O")
        self.assertEqual(marked("last"), ["e1", "g1"])

    def test_the_players_and_the_result(self):
        page = self.page
        self.read()
        self.assertEqual((page.text("player1"), page.text("player2")), ("Caruana, Fabiano28041", "Nakamura, Hikaru28020"))
        self.assertEqual(page.script("return document.title"), "Caruana, Fabiano \u2013 Nakamura, Hikaru \u00b7 Jatshegi")
        page.script("document.getElementById('flip').click()")
        self.assertEqual((page.text("player1"), page.text("player2")), ("Nakamura, Hikaru28020", "Caruana, Fabiano28041"))
        page.script("document.getElementById('new').click()")
        page.until_moves("")
        self.assertEqual((page.text("player1"), page.text("player2")), ("Black", "White"))
        self.assertEqual(page.script("return document.title"), "Jatshegi: an analysis board")
        hint = "return document.getElementById('hint').checkVisibility()"
        self.assertTrue(page.script(hint))
        page.play("e4")
        self.assertFalse(page.script(hint))

    def test_men_glide_where_motion_is_wanted(self):
        page = self.page
        page.script("""
            window.glides = [];
            window.reduced = false;
            const animate = Element.prototype.animate;
            Element.prototype.animate = function (...words) { glides.push(this.closest('[data-square]').dataset.square); return animate.apply(this, words); };
            const match = window.matchMedia;
            window.matchMedia = (text) => text.includes('reduced-motion') ? { matches: window.reduced } : match.call(window, text);
        """)
        page.play("e4", "e5")
        self.assertEqual(page.script("return glides"), ["e4", "e5"])
        page.script("document.getElementById('back').click()")
        page.until(lambda: page.script("return glides") == ["e4", "e5", "e7"], "it glides back")
        page.script("window.reduced = true")
        page.play("c5")
        page.script("window.reduced = false; const it = document.getElementById('motion'); it.value = 'still'; it.dispatchEvent(new Event('change'))")
        page.play("Nf3")
        self.assertEqual(page.script("return glides.length"), 3)

    def test_moves_are_announced(self):
        page = self.page
        said = """
            window.heard = [];
            new MutationObserver(() => heard.push(document.getElementById('said').textContent)).observe(document.getElementById('said'), { childList: true, characterData: true, subtree: true });
            return [document.getElementById('said').getAttribute('role'), document.getElementById('said').getAttribute('aria-live'), document.getElementById('told').getAttribute('role')];
        """
        self.assertEqual(page.script(said), ["status", "polite", "alert"])
        page.play("e4", "f6", "Qh5")
        page.script("document.getElementById('back').click()")
        page.until(lambda: len(page.script("return heard")) >= 4, "four things are said")
        page.script("document.getElementById('start').click()")
        page.until(lambda: len(page.script("return heard")) >= 5, "five things are said")
        self.assertEqual(page.script("return heard"), ["1. e4. Black to move.", "\u2026 f6. White to move.", "2. Qh5+. Black to move, in check from h5 (Article 3.9.1).", "\u2026 f6. White to move.", "The start. White to move."])

    def test_the_rules_for_everyone(self):
        """Those that axe would look for, in the page and in each of its boxes, which takes the focus and gives it back."""
        page = self.page
        self.read()
        self.assertEqual(page.script(BROKEN), [])
        for name in page.script("return [...document.querySelectorAll('[data-opens]')].filter((it) => it.id !== 'mygames').map((it) => it.id)"):
            with self.subTest(box=name):
                box = page.script("return document.getElementById(arguments[0]).dataset.opens", name)
                page.shows(name)
                page.script("document.getElementById(arguments[0]).focus(); document.getElementById(arguments[0]).click()", name)
                page.until(lambda: page.script("return document.getElementById(arguments[0]).contains(document.activeElement)", box), f"{box} has the focus")
                self.assertEqual(page.script(BROKEN), [])
                self.press("\ue00c")
                page.until(lambda: not page.script("return document.getElementById(arguments[0]).open", box), f"{box} is closed")
                page.until(lambda: page.script("return document.activeElement !== document.body && !document.querySelector('dialog[open]')"), "the focus is on the page")
                page.closes()

    def test_what_is_wrong_by_a_rule_is_found(self):
        page = self.page
        for rule, text in WRONG.items():
            with self.subTest(rule=rule):
                page.script("""
                    const it = document.createElement('div');
                    it.id = 'wrong';
                    it.innerHTML = arguments[0];
                    for (const small of it.querySelectorAll('.small')) small.style.cssText = 'all: initial; width: 9px; height: 9px; padding: 0';
                    document.body.append(it);
                """, text)
                found = page.script(BROKEN)
                page.script("document.getElementById('wrong').remove()")
                self.assertTrue(any(it.startswith(rule) for it in found), found)

    def test_tab_goes_through_the_page_in_its_order(self):
        page = self.page
        self.read()
        page.script("""
            window.passed = [];
            addEventListener('focusin', ({ target }) => passed.push(target));
            [...document.querySelectorAll('a[href], button, input, select')].find((it) => it.tabIndex === 0 && it.checkVisibility({ visibilityProperty: true })).focus();
        """)
        for _ in range(40):
            self.press("\ue004")
        passed = """
            const once = [...new Set(passed)];
            const wrong = once.filter((it, i) => i > 0 && !(once[i - 1].compareDocumentPosition(it) & Node.DOCUMENT_POSITION_FOLLOWING));
            const can = [...document.querySelectorAll('a[href], button, input, select, textarea, summary, [tabindex="0"]')].filter((it) => it.tabIndex === 0 && !it.disabled && it.checkVisibility({ visibilityProperty: true }));
            return [once.length, wrong.map((it) => it.id), can.filter((it) => !passed.includes(it)).map((it) => it.outerHTML.slice(0, 80))];
        """
        count, wrong, missed = page.script(passed)
        self.assertGreater(count, 12)
        # (where the keys come to the end they begin anew)
        self.assertLessEqual(len(wrong), 1)
        self.assertEqual(missed, [])

    def test_the_focus_is_never_lost_and_lists_have_one_tab_stop(self):
        page = self.page
        self.read()
        stops = "return [document.querySelectorAll('#board [tabindex=\"0\"]').length, [...document.querySelectorAll('#moves button')].filter((it) => it.tabIndex === 0).length]"
        focused = "const it = document.activeElement; return it.id || it.dataset.square || window.jatshegi.pathAt(it) || it.tagName"
        current = "const it = document.querySelector('[aria-current]'); return it && window.jatshegi.pathAt(it)"
        focus = "[...document.querySelectorAll('.move')].find((it) => window.jatshegi.pathAt(it) === arguments[0]).focus()"
        self.assertEqual(page.script(stops), [1, 1])
        page.script(focus, "0.0.0")
        self.press("\ue007")
        page.until(lambda: page.script(current) == "0.0.0", "the move is gone to")
        self.assertEqual(page.script(focused), "0.0.0")
        self.press("\ue014")
        page.until(lambda: page.script(focused) == "0.0.0.0", "the focus goes on with the moves")
        self.press("\ue010")
        page.until(lambda: page.script("return document.getElementById('end').getAttribute('aria-disabled')") == "true", "the end is shown")
        self.press("\ue011")
        page.until(lambda: page.script("return document.getElementById('start').getAttribute('aria-disabled')") == "true", "the start is shown")
        self.assertEqual((page.script(focused), page.script(stops)), ("0", [1, 1]))
        page.script(focus, "0.0.0")
        self.press("\ue007")
        page.until(lambda: page.script(current) == "0.0.0", "the move is gone to")
        # what the focused move hangs on is taken out, and the focus is still in the list
        page.script("window.jatshegi.settled().then(() => document.getElementById('delete').onclick())")
        page.until(lambda: "Nf3" not in page.moves, "it is taken out")
        self.assertEqual(page.script(focused), "0.0")
        for name in ("undo", "redo", "back", "forward", "flip"):
            page.script("document.getElementById(arguments[0]).focus()", name)
            for _ in range(3):
                self.press(" ")
                self.assertEqual(page.script(focused), name)
        page.script("document.getElementById('menubutton').focus()")
        self.press("\ue007")
        page.until(lambda: page.script(focused) == "new", "the menu is open")
        self.press("\ue015")
        self.assertEqual(page.script(focused), "menugames")
        self.press("\ue00c")
        page.until(lambda: page.script(focused) == "menubutton", "the menu is closed")
        # (the board was turned three times)
        page.script("document.getElementById('flip').click(); document.querySelector('[data-square=e2]').focus()")
        self.press("\ue008", "\ue013")
        self.assertEqual(page.script(focused), "e3")
        page.script("document.querySelector('[data-square=e3]').focus(); document.getElementById('flip').click()")
        self.assertEqual(page.script(focused), "e3")


class InChromium(Looking, unittest.TestCase):
    @classmethod
    def setUpClass(cls):
        cls.folder = tempfile.mkdtemp()
        cls.browser = test_web.new_browser(cls.folder)
        cls.page = test_web.Page(cls.browser)

    @classmethod
    def tearDownClass(cls):
        cls.browser.quit()
        shutil.rmtree(cls.folder, ignore_errors=True)

    def tearDown(self):
        self.browser.execute_cdp_cmd("Emulation.clearDeviceMetricsOverride", {})


@unittest.skipUnless(shutil.which("firefox-esr"), "the package firefox-esr is missing")
class InFirefox(Looking, unittest.TestCase):
    @classmethod
    def setUpClass(cls):
        cls.folder = tempfile.mkdtemp()
        cls.browser = firefox.Firefox(cls.folder)
        cls.page = test_web.Page(cls.browser)

    @classmethod
    def tearDownClass(cls):
        cls.browser.quit()
        shutil.rmtree(cls.folder, ignore_errors=True)

    def tearDown(self):
        self.browser.set_size(1200, 950)


if __name__ == "__main__":
    unittest.main()

"""The pages say what is so: what they name exists, crates depend on what the map says, and each definition has its line of explanation."""
import glob
import os
import re
import subprocess
import tempfile
import unittest

import runs

PAGES = ["README.md", "CONTRIBUTING.md", "CHANGELOG.md", "SECURITY.md", "crates/README.md", "examples/README.md", "tools/README.md", "tools/tables/README.md", "web/jatshegi/README.md", "suite/README.md"]
PAGES += sorted(it for folder in ("docs", ".github", ".github/ISSUE_TEMPLATE") for it in glob.glob(f"{folder}/*.md", root_dir=runs.TOP))

# Words that no source has: commands of the machine, letters of men and moves, a move that is not read, and a name that stands for others.
ELSEWHERE = {"bash", "cc", "git", "parallel", "pgn-extract", "polyglot", "sed", "stockfish", "qemu-user", "valgrind", "xboard", "errno", "Z0", "After-f", "NAME"}
# Programs and variables of the machine, on the page for data.
ELSEWHERE |= {"sqlite3", "zstdcat", "xzcat", "bzcat", "TMPDIR", "PYTHONPATH"}
# Names of Rust's library and of shakmaty, on the page for Rust.
ELSEWHERE |= {"no_std", "Sync", "to_string", "into_position", "San", "SanPlus", "Bitboard"}
# Options of chess.js, and what one of its calls answers, on the page for JavaScript.
ELSEWHERE |= {"skipValidation", "maxWidth", "newlineChar", "undefined"}
# What PROMISES names of a crate though it is another's: laws of chess_theorems, and what its callers or C see.
OF_OTHERS = {"Nothing", "search_laws", "abandoned_laws", "AnswersRequest", "JATSHEGI_EMPTY"}
LETTERS = re.compile(r"[PNBRQK]+|[pnbrqk]+|[PNBRQKpnbrqk]{12}|([a-h][1-8]){2}")


def text_of(path):
    with open(f"{runs.TOP}/{path}", encoding="utf-8") as file:
        return file.read()


def sources():
    for folder, below, names in os.walk(f"{runs.TOP}/crates"):
        below[:] = [name for name in below if name != "out"]
        for name in names:
            yield os.path.relpath(f"{folder}/{name}", runs.TOP)


def marked(page):
    """What a page has between back-ticks, blocks of code left out."""
    return re.findall(r"`([^`\n]+)`", re.sub(r"^(```.*?^```|    .*?)$", "", text_of(page), flags=re.M | re.S))


# A definition of specs/, from its line to the next empty one.
DEFINITION = re.compile(r"^ *(?:pub record|abbrev pub|unfoldable pub|pub data) (\S+)(?:.*\n)*?(?=\n|\Z)", re.M)
CLAUSE = re.compile(r"(?:requires|ensures) (\w+ )?\{(.*?)\}(?=\n|$)", re.S)
PUBLIC = re.compile(r"pub (?:extern \"C\" )?fn (\w+)(.*?)(?=\n *\{|;\n\n)", re.S)
IMPL = re.compile(r"^impl(?:<[^\n]*?>)? (?:[\w:<>', ]+ for )?&?(\w+)", re.M)
# One or more names, and what a page has in brackets after them: `next`, `pop` of chess_draws (`legal`, `line`).
CARRIED = re.compile(r"((?:`[\w:]+`(?:, | and )?)+)(?: of \w+)? \(((?:[^()]|\([^)]*\))*)\)")


def named_in_clauses(files):
    """By each public function's name, also with its type before it, the names that a page may give for its clauses: their labels, the definitions that they
    cite, by way of up to two others, and the fields of these."""
    cited, fields = {}, {}
    for path in files:
        if re.fullmatch(r"crates/\w+/specs/.*\.antt", path):
            for found in DEFINITION.finditer(text_of(path)):
                cited.setdefault(found[1], set()).update(re.findall(r"[A-Za-z][\w-]*", found[0]))
                fields.setdefault(found[1], set()).update(re.findall(r"^ +pub (\S+) :", found[0], flags=re.M))
    named = {}
    for path in files:
        if not re.fullmatch(r"crates/\w+/src/.*\.rt", path):
            continue
        body = text_of(path)
        owners = [(found.start(), found[1]) for found in IMPL.finditer(body)]
        for function in PUBLIC.finditer(body):
            labels, reached = set(), set()
            for label, text in CLAUSE.findall(function[2]):
                labels.add(label.strip())
                reached.update(re.findall(r"[A-Za-z][\w-]*", text))
            for _ in range(2):
                reached.update(word for it in reached.intersection(cited) for word in cited[it])
            reached &= cited.keys()
            labels |= reached.union(*(fields[it] for it in reached))
            owner = [name for place, name in owners if place < function.start()]
            for name in [function[1], *(f"{it}::{function[1]}" for it in owner[-1:])]:
                named.setdefault(name, set()).update(labels)
    return named


class Pages(unittest.TestCase):
    @classmethod
    def setUpClass(cls):
        cls.files = list(sources())
        cls.words = set(os.listdir(runs.TOP))
        for path in cls.files:
            cls.words.update(re.findall(r"\w+", path))
            cls.words.update(re.split(r"[/.]", path))
            if path.endswith((".rt", ".antt", ".edit", "stdin", "parts.txt")):
                cls.words.update(re.findall(r"[\w-]+|\w+", text_of(path)))
                cls.words.update(re.findall(r"\w+", text_of(path)))
        python = glob.glob("python/jatshegi/**/*.py", root_dir=runs.TOP, recursive=True)
        rust = glob.glob("rust/src/*.rs", root_dir=runs.TOP)
        script = glob.glob("web/jatshegi/src/*.js", root_dir=runs.TOP)
        tools = [path for path in glob.glob("tools/*", root_dir=runs.TOP) + glob.glob("tools/tables/*", root_dir=runs.TOP) if os.path.isfile(f"{runs.TOP}/{path}")]
        suite = [f"suite/{name}" for name in glob.glob("run*", root_dir=f"{runs.TOP}/suite") + glob.glob("*.jsonl", root_dir=f"{runs.TOP}/suite")]
        suite += glob.glob("suite/boards/*.*", root_dir=runs.TOP)
        for path in ("chess", "build", "test", "DESCRIPTION", *tools, *suite, "crates.txt", "include/jatshegi.h", "rust/build.rs", *python, *rust, *script):
            cls.words.update(re.findall(r"[\w-]+", text_of(path)))

    def test_each_link_leads_somewhere(self):
        for page in PAGES:
            for target in re.findall(r"\]\(([^)#\s]+)[^)]*\)", text_of(page)):
                if "://" not in target:
                    with self.subTest(page=page, target=target):
                        self.assertTrue(os.path.exists(os.path.join(runs.TOP, os.path.dirname(page), target)))

    def test_each_anchor_is_a_heading(self):
        """As GitHub makes them of headings: in lower case, without punctuation, with a hyphen for each space."""
        for page in PAGES:
            for target, anchor in re.findall(r"\]\(([^)#\s]*)#([^)\s]+)\)", text_of(page)):
                path = os.path.normpath(os.path.join(os.path.dirname(page), target)) if target else page
                if "://" not in target:
                    headings = re.findall(r"^#+ (.*)$", re.sub(r"^```.*?^```$", "", text_of(path), flags=re.M | re.S), flags=re.M)
                    with self.subTest(page=page, target=target, anchor=anchor):
                        self.assertIn(anchor, [re.sub(r"[^\w\- ]", "", it.lower()).replace(" ", "-") for it in headings])

    def test_the_index_has_each_page_once(self):
        """That of docs/, in the folder and for the reader of the repository."""
        linked = re.findall(r"\]\((\w+\.md)\)", text_of("docs/README.md"))
        self.assertEqual(sorted(linked), sorted(set(glob.glob("*.md", root_dir=f"{runs.TOP}/docs")) - {"README.md"}))
        self.assertIn("[All pages](docs/README.md)", text_of("README.md"))

    def test_the_index_of_tools_has_each_file_once(self):
        first = re.findall(r"^\| `([^` ]+)` \|", text_of("tools/README.md"), flags=re.M)
        files = [name for name in os.listdir(f"{runs.TOP}/tools") if os.path.isfile(f"{runs.TOP}/tools/{name}")]
        self.assertEqual(sorted(first), sorted(set(files) - {"README.md"}))

    def test_no_page_gets_harder_to_read(self):
        """The share of the sentences that tools/prose marks is at most that of tests/prose.txt, in percent, which lists every page."""
        ran = subprocess.run([f"{runs.TOP}/tools/prose", "--counts", *PAGES], cwd=runs.TOP, capture_output=True, text=True, check=True)
        shares = {path: 100 * int(marked) / int(count) for count, marked, path in re.findall(r"^ *(\d+) +\d+ +\S+ +(\d+) +\S+  (\S+\.md)$", ran.stdout, flags=re.M)}
        self.assertEqual(shares.keys(), set(PAGES))
        most = dict(row.rsplit(maxsplit=1) for row in text_of("tests/prose.txt").splitlines() if not row.startswith("#"))
        self.assertEqual(sorted(most), sorted(PAGES))
        for page, share in shares.items():
            with self.subTest(page=page):
                self.assertLessEqual(share, int(most[page]), f"read tools/prose {page}")

    def test_a_hard_sentence_is_marked_and_a_plain_one_is_not(self):
        with tempfile.NamedTemporaryFile("w", suffix=".md", encoding="utf-8") as page:
            page.write("If no other piece can go there, the text names no square.\n\nWhere there is none, nothing is added to what was read.\n")
            page.flush()
            ran = subprocess.run([f"{runs.TOP}/tools/prose", page.name], capture_output=True, text=True)
        self.assertEqual((ran.returncode, re.findall(r"(?m)^\S+?:(\d+): (where-if),", ran.stdout)), (1, [("3", "where-if")]), ran.stdout)

    def test_no_file_is_a_link(self):
        """`rt ci` proves nothing in a repository that has one."""
        links = [f"{at}/{name}" for at, below, names in os.walk(runs.TOP) for name in below + names if os.path.islink(f"{at}/{name}")]
        self.assertEqual([it for it in links if not it.startswith((f"{runs.TOP}/out/", f"{runs.TOP}/.git/"))], [])

    def test_crates_are_named_in_one_file(self):
        """`rt ci` refuses another file of that name anywhere, and a source that is no crate's."""
        found = [f"{at}/crates.txt" for at, _, names in os.walk(runs.TOP) if "crates.txt" in names]
        self.assertEqual(found, [f"{runs.TOP}/crates.txt"])
        sources = [f"{at}/{name}" for at, _, names in os.walk(runs.TOP) for name in names if name.endswith((".rt", ".antt"))]
        self.assertEqual([it for it in sources if not it.startswith((f"{runs.TOP}/crates/", f"{runs.TOP}/.git/"))], [])

    def test_each_file_that_is_named_exists(self):
        for page in PAGES:
            for text in marked(page):
                for path in re.findall(r"[\w./*-]+\.(?:rt|antt|edit|md|txt|py)\b|(?:crates|docs|suite|tools|tests|release)/[\w./*-]+", text):
                    with self.subTest(page=page, path=path):
                        shape = re.escape(path.rstrip("/.")).replace(r"\*", "[^/]*")
                        there = any(os.path.exists(f"{runs.TOP}/{at}/{path}") for at in (".", os.path.dirname(page))) or any(re.search(f"(^|/){shape}($|/)", file) for file in self.files)
                        self.assertTrue(there or glob.glob(f"{runs.TOP}/{path}") or "NAME" in path)

    def test_what_is_quoted_is_as_in_the_sources(self):
        ran = subprocess.run([f"{runs.TOP}/tools/quote", "--check"], capture_output=True, text=True)
        self.assertEqual((ran.returncode, ran.stderr), (0, ""), f"put it in anew: tools/quote\n{ran.stdout}")
        self.assertGreater(int(re.search(r"(\d+) quotations", ran.stdout)[1]), 20)

    def test_the_tour_prints_a_refusal_of_the_sources_as_they_are(self):
        """Its place is the beginning of an answer which the page quotes, and it is about the function that the page quotes and that its command names."""
        tour = text_of("docs/TOUR.md")
        crate, function = re.search(r"^    tools/check (\w+) --only (\S+)$", tour, flags=re.M).groups()
        path, line, column, goal = re.search(r"^    \./(proofs/\S+?):(\d+):(\d+): error: `(.*?)`", tour, flags=re.M).groups()
        head, answer = text_of(f"crates/{crate}/{path}").splitlines()[int(line) - 2 : int(line)]
        self.assertEqual(head, f"{goal} c =")
        self.assertEqual(len(answer) - len(answer.lstrip()) + 1, int(column))
        self.assertIn(f"<!-- from crates/{crate}/{path}: {goal} -->\n", tour)
        self.assertIn(f"\n{answer}\n", tour)
        self.assertIn(f"    fn {function}: not proved\n", tour)
        proved = re.findall(r"^    fn (\w+)::(\w+)::(\w+): (?:not )?proved$", tour, flags=re.M)
        self.assertIn(f"    only={len(proved)} proved={len(proved) - 1}\n", tour)
        for crate, module, name in proved:
            with self.subTest(function=name):
                self.assertRegex(text_of(f"crates/{crate}/src/{module}.rt"), rf"\bfn {name}\b")

    def test_no_promise_is_long(self):
        """A paragraph, or a point of a list, has at most 100 words; a table may be as long as it is."""
        prose = re.sub(r"^```.*?^```$", "", text_of("docs/PROMISES.md"), flags=re.M | re.S)
        for paragraph in re.split(r"\n\s*\n|\n(?=- )", prose):
            if not paragraph.startswith("|"):
                with self.subTest(paragraph=paragraph.strip().splitlines()[:1]):
                    self.assertLessEqual(len(paragraph.split()), 100)

    def test_a_wrong_body_that_may_be_refused_by_a_name_has_a_dagger(self):
        """Of the wrong bodies that PROMISES names those of tests/by_name.txt have one, and no other."""
        by_name = {row.split("/")[1] for row in text_of("tests/by_name.txt").splitlines() if row and not row.startswith("#")}
        bodies = {os.path.basename(it).removesuffix(".edit") for folder in ("must-fail", "wrong") for it in glob.glob(f"crates/*/{folder}/*.edit", root_dir=runs.TOP)}
        self.assertLessEqual(by_name, bodies)
        named = [(name, dagger) for name, dagger in re.findall(r"`(\w+)`(†?)", text_of("docs/PROMISES.md")) if name in bodies or dagger]
        self.assertGreater(len(named), 150)
        for name, dagger in named:
            with self.subTest(wrong_body=name):
                self.assertEqual(dagger == "†", name in by_name)

    def test_each_mistake_of_chess_programs_is_tried_by_the_gate(self):
        """Its wrong bodies are in must-fail of their crates, and each changes a file that has a function of its row."""
        part = text_of("docs/PROMISES.md").split("\n### Mistakes that chess programs make\n")[1].split("\n## ")[0]
        rows = re.findall(r"^\| (?!Mistake|---)([^|]*) \| ([^|]*) \| ([^|]*) \| ([^|]*) \|$", part, flags=re.M)
        self.assertEqual(len(rows), 27)
        for mistake, crates, bodies, functions in rows:
            wanted = re.findall(r"`(\w+)`", re.sub(r"\([^)]*\)", "", functions))
            for body in re.findall(r"`(\w+)`", bodies):
                with self.subTest(mistake=mistake, wrong_body=body):
                    (edit,) = [path for crate in crates.split(", ") for path in glob.glob(f"crates/{crate}/must-fail/{body}.edit", root_dir=runs.TOP)]
                    source = text_of(f"crates/{edit.split('/')[1]}/{re.search(r'^file: (.*)$', text_of(edit), flags=re.M)[1]}")
                    self.assertTrue(any(re.search(rf"\bfn {name}\b", source) for name in wanted), wanted)

    def test_each_rule_shows_its_definition(self):
        laws = text_of("docs/LAWS.md")
        shown = {name for names in re.findall(r"<!-- from crates/chess_types/\S+: ([^>]*) -->", laws) for name in names.split()}
        rows = [row for row in re.findall(r"^\| [^|]* \| [^|]* \| (`\w+\.antt`: .*) \|$", laws, flags=re.M)]
        self.assertGreater(len(rows), 12)
        for row in rows:
            with self.subTest(row=row):
                self.assertLessEqual({it for it in re.findall(r"`(\w+)`", row)}, shown)

    def test_each_definition_of_the_board_that_is_used_is_shown(self):
        """What LAWS shows of chess_types/specs/board uses nothing of that folder that it doesn't show."""
        defined = set()
        for path in self.files:
            if path.startswith("crates/chess_types/specs/board/"):
                defined.update(re.findall(r"^ *(?:pub record|abbrev pub|unfoldable pub|pub data) (\S+)", text_of(path), flags=re.M))
        quoted = re.findall(r"<!-- from crates/chess_types/specs/board/\S+: ([^>]*) -->\n```\n(.*?)^```$", text_of("docs/LAWS.md"), flags=re.M | re.S)
        shown = {name for names, _ in quoted for name in names.split()}
        used = {word for _, code in quoted for word in re.findall(r"[A-Za-z_][\w-]*", re.sub(r'"[^"]*"', "", code))}
        self.assertEqual(sorted(used & defined - shown), [])

    def test_each_function_that_is_shown_is_a_source(self):
        guide = {text_of(path) for path in ("crates/chess_guide/src/main.rt", "crates/chess_guide/src/tasks.rt")}
        shown = [block for page in PAGES for block in re.findall(r"^((?:    .*\n|\n)+)", text_of(page), flags=re.M) if re.search(r"^    (pub )?fn .*\{$|^    \{$", block, flags=re.M)]
        self.assertGreater(len(shown), 4)
        for block in shown:
            code = re.sub(r"^    ", "", block.strip("\n"), flags=re.M)
            with self.subTest(code=code.splitlines()[0]):
                self.assertTrue("    .." in code or any(code in text for text in guide))

    def test_each_name_that_is_named_exists(self):
        for page in PAGES:
            for text in marked(page):
                if re.fullmatch(r"[A-Za-z_][\w-]*(::[A-Za-z_]\w*)*(\(\))?", text):
                    for word in re.findall(r"[\w-]+", text):
                        with self.subTest(page=page, name=text):
                            self.assertTrue(word in self.words or word in ELSEWHERE or LETTERS.fullmatch(word))

    def test_each_name_of_a_crates_paragraphs_is_of_that_crate(self):
        """What PROMISES names of a crate the files of that crate name, too."""
        words = {}
        for path in self.files:
            if path.endswith((".rt", ".antt")):
                words.setdefault(path.split("/")[1], set()).update(re.findall(r"[A-Za-z_][\w-]*", text_of(path)))
        page = text_of("docs/PROMISES.md")
        parts = re.findall(r"^((?:\*\*\w+\*\*(?:, )?)+) \u2014 (.*?)(?=^\*\*\w+\*\*(?:,| \u2014)|^## |\Z)", page[page.index("**byte_streams**") :], flags=re.M | re.S)
        self.assertGreater(len(parts), 25)
        for heads, text in parts:
            own = set().union(*(words.get(crate, set()) for crate in re.findall(r"\w+", heads)))
            for name in re.findall(r"`([A-Za-z_]\w*)`(?! of chess_)", text):
                with self.subTest(crates=heads, name=name):
                    self.assertTrue(name in own or name in OF_OTHERS or LETTERS.fullmatch(name), name)

    def test_each_clause_that_is_named_is_one_of_its_function(self):
        named, count = named_in_clauses(self.files), 0
        for page in ("docs/PROMISES.md", "docs/LIMITS.md", "docs/LAWS.md", "docs/C.md", "docs/WEB.md"):
            for names, bracket in CARRIED.findall(re.sub(r"\s+", " ", text_of(page))):
                functions = [it for it in re.findall(r"`([\w:]+)`", names) if it in named]
                for clause in re.findall(r"`(\w+)`", bracket) if functions else ():
                    count += 1
                    with self.subTest(page=page, functions=names, clause=clause):
                        self.assertTrue(any(clause in named[it] for it in functions))
        self.assertGreater(count, 80)

    def test_the_changelog_and_the_citation_are_dated(self):
        """By keepachangelog's rules: what isn't released comes first, then the releases with their dates, the newest first; each with sections once."""
        log = text_of("CHANGELOG.md")
        releases = re.findall(r"^## (.*)\n((?:(?!## ).*\n)*)", log, flags=re.M)
        named = [re.fullmatch(r"\[(\d+)\.(\d+)\.(\d+)\] - (\d{4}-\d\d-\d\d)", head) for head, _ in releases if head != "[Unreleased]"]
        self.assertTrue(all(named) and "[Unreleased]" not in [head for head, _ in releases[1:]])
        order = [([int(it) for it in one.groups()[:3]], one[4]) for one in named]
        self.assertEqual(order, sorted(order, reverse=True))
        for head, text in releases:
            kinds = re.findall(r"^### (.*)$", text, flags=re.M)
            with self.subTest(release=head):
                self.assertEqual(kinds, [it for it in ("Added", "Changed", "Deprecated", "Removed", "Fixed", "Security", "Proved") if it in kinds])
        self.assertRegex(text_of("CITATION.cff"), rf'(?m)^version: "{re.escape(runs.VERSION)}"\ndate-released: "\d{{4}}-\d\d-\d\d"$')

    def test_each_product_says_the_sentence_of_the_description(self):
        """The one line of DESCRIPTION, in each place that a user may read first; or its beginning, if there is little room."""
        sentence = text_of("DESCRIPTION").strip()
        summary = sentence.split(":")[0]
        self.assertEqual(text_of("DESCRIPTION"), f"{sentence}\n")
        short = {"CITATION.cff": f'title: "Jatshegi: {summary[0].lower()}{summary[1:]}"\n', "man/jatshegi.3": f".Nd {summary[0].lower()}{summary[1:]}\n"}
        # (these have it in one line, as a value)
        values = {"rust/Cargo.toml": f'description = "{sentence}"\n', "python/pyproject.toml": f'description = "{sentence}"\n', "python/packing.py": f'SUMMARY = "{sentence}"\n'}
        values |= {"web/jatshegi/package.json": f'"description": "{sentence}",\n', "web/about.html": f"<p>{sentence}</p>\n", "web/index.html": f'An analysis board for chess. {sentence}">\n'}
        values |= {"python/jatshegi/__init__.py": f'"""{sentence}\n', "tools/libraries": "\nDescription: $(cat DESCRIPTION)\n"}
        for path, text in [*short.items(), *values.items()]:
            with self.subTest(path=path):
                self.assertIn(text, text_of(path))
        for path in ("include/jatshegi.h", "rust/src/lib.rs", "rust/README.md", "python/README.md", "web/jatshegi/README.md", "man/jatshegi.3", "CITATION.cff"):
            with self.subTest(path=path):
                self.assertIn(sentence, " ".join(re.sub(r"^(//!| \*)", "", text_of(path), flags=re.M).split()))
        told = re.compile(r"every answer is proved|(proved|whose) answers|answers are proved")
        for path in [*short, *values, "include/jatshegi.h", "rust/src/lib.rs", "rust/README.md", "python/README.md", "web/jatshegi/README.md", "man/chess.1", "tools/packages", "tools/install"]:
            with self.subTest(path=path):
                self.assertIsNone(told.search(text_of(path)))

    def test_the_measures_by_release_are_those_that_are_kept(self):
        rows = [row.split(",") for row in text_of("docs/benchmarks.csv").splitlines()[1:]]
        table = [[cell.strip() for cell in row.strip("|").split("|")] for row in re.search(r"^\| Measure \|.*\n(?:\|.*\n)*", text_of("docs/SPEED.md"), re.M)[0].splitlines()]
        shown = {(version, row[0]): cell.split()[0] for row in table[2:] for version, cell in zip(table[0][1:], row[1:]) if cell != "not there"}
        self.assertEqual(shown, {(version, name): f"{int(value) / 1e6:.2f}" for version, _, name, value in rows}, "make it anew: tools/benchmarks --table")

    def test_what_a_wrong_body_or_a_part_replaces_occurs_once(self):
        for path in [it for folder in ("must-fail", "wrong", "right") for it in glob.glob(f"crates/*/{folder}/*.edit", root_dir=runs.TOP)]:
            text = text_of(path)
            source = text_of(f"{os.path.dirname(os.path.dirname(path))}/{re.search(r'^file: (.*)$', text, re.M)[1]}")
            with self.subTest(path=path):
                # (a text is one line; more lines wouldn't be read)
                pairs = re.findall(r"^old: (.*)\nnew: ?(.*)$", text, re.M)
                self.assertEqual(len(pairs), len(re.findall(r"^old:", text, re.M)))
                for old, new in pairs:
                    self.assertEqual(source.count(old), 1)
                    self.assertNotEqual(old, new)
                    source = source.replace(old, new)
        for source, old in re.findall(r"^file: (.*)\nold: (.*)\n", text_of("crates/chess_examples/parts.txt"), re.M):
            with self.subTest(source=source, old=old):
                self.assertEqual(text_of(f"crates/{source}").count(re.sub("[⟦⟧]", "", old).replace("\\n", "\n")), 1)

    def test_a_right_body_stands_beside_a_wrong_one(self):
        """It has the same name, is in the same file, and replaces the same text."""
        paths = glob.glob("crates/*/right/*.edit", root_dir=runs.TOP)
        self.assertTrue(paths)
        for path in paths:
            with self.subTest(path=path):
                wrong = [it for folder in ("must-fail", "wrong") if os.path.exists(f"{runs.TOP}/{(it := path.replace('/right/', f'/{folder}/'))}")]
                self.assertEqual(len(wrong), 1)
                self.assertEqual(re.findall(r"^(?:file|old): .*$", text_of(path), re.M), re.findall(r"^(?:file|old): .*$", text_of(wrong[0]), re.M))

    def test_each_definition_is_explained(self):
        """Each definition of specs/ has a comment before it or a row at the head of its file, and each row names what the file has."""
        for path in self.files:
            if not re.fullmatch(r"crates/\w+/specs/.*\.antt", path):
                continue
            head, body = re.fullmatch(r"((?:--[^\n]*\n)*)(.*)", text_of(path), flags=re.S).groups()
            rows = re.findall(r"^--   (\S+(?:, \S+)*)  ", head, flags=re.M)
            listed = {name for row in rows for name in row.split(", ")}
            for name in listed:
                with self.subTest(path=path, row=name):
                    self.assertRegex(body, rf"(?<![\w-]){re.escape(name)}(?![\w-])")
            lines = body.split("\n")
            for before, line in zip([""] + lines, lines):
                found = re.match(r"\s*(?:abbrev pub|unfoldable pub|pub record|pub data) (\S+)", line)
                if found and found[1] not in listed:
                    with self.subTest(path=path, definition=found[1]):
                        self.assertRegex(before, r"^\s*(-- (?!----)|infix)")

    def test_crates_depend_on_what_the_map_says(self):
        known = dict(re.findall(r"^([a-z_]+)(?: staticlib)?:(.*)$", text_of("crates.txt"), flags=re.M))
        rows = re.findall(r"^\| (`[a-z_`, ]+`) \| .* \| ([^|]*) \|$", text_of("docs/ARCHITECTURE.md"), flags=re.M)
        listed = {}
        for crates, below in rows:
            names = re.findall(r"`([a-z_]+)`", crates)
            if len(names) == 1 and names[0] in known:
                listed[names[0]] = below.strip()
        for name, below in listed.items():
            own = {it.removeprefix("chess_") for it in known[name].split() if it in known}
            with self.subTest(crate=name):
                self.assertEqual(set(re.findall(r"\w+", below)), own)
        self.assertGreater(len(listed), 15)
        for name in known:
            with self.subTest(crate=name):
                self.assertTrue(f"`{name}`" in text_of("docs/ARCHITECTURE.md"), name)

    def test_what_is_trusted_names_each_crate_of_the_kit(self):
        rows = re.findall(r"^([a-z_]+)(?: staticlib)?:(.*)$", text_of("crates.txt"), flags=re.M)
        trusted = text_of("docs/PROMISES.md").split("\n## What is trusted\n")[1]
        # (two are parts of std)
        for crate in {it for _, below in rows for it in below.split()} - {name for name, _ in rows} - {"core", "std_alloc"}:
            with self.subTest(crate=crate):
                self.assertRegex(trusted, rf"\b{crate}\b")
        for page in (trusted, text_of("docs/QUESTIONS.md")):
            self.assertIn("`python/jatshegi/_fast.c`", page)

    def test_the_folder_of_crates_has_its_map(self):
        """The sections and crates of crates/README.md are those of crates.txt, in order."""
        rows = re.findall(r"^(?:# (.*)|([a-z_]+)(?: staticlib)?:.*)$", text_of("crates.txt"), flags=re.M)
        self.assertEqual(re.findall(r"^(?:## (.*)|\| \[([a-z_]+)\]\(\2\) \| .* \|)$", text_of("crates/README.md"), flags=re.M), rows)

    def test_a_name_is_defined_in_one_crate(self):
        """A name of specs/, steps apart, is defined in one crate, but those that tests/names.txt lists with their crates."""
        found = {}
        for path in self.files:
            crate = re.fullmatch(r"crates/(\w+)/specs/(?!steps).*\.antt", path)
            for name in re.findall(r"^ *(?:pub record|abbrev pub|unfoldable pub|pub data) (\S+)", text_of(path), flags=re.M) if crate else ():
                found.setdefault(name, set()).add(crate[1])
        listed = {row.split()[0]: set(row.split()[1:]) for row in text_of("tests/names.txt").splitlines() if not row.startswith("#")}
        for name in sorted({name for name, crates in found.items() if len(crates) > 1} | listed.keys()):
            with self.subTest(name=name):
                self.assertEqual(found.get(name), listed.get(name), "give it another name; tests/names.txt has those that are known")

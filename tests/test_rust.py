"""The crate for Rust: its declarations are those of the header, its tests and examples pass, and it packs with the library in it."""
import datetime
import importlib.machinery
import importlib.util
import os
import re
import shutil
import subprocess
import tarfile
import tempfile
import unittest

import runs

CRATE = f"{runs.TOP}/rust"
# The folders of release/ by Rust's names of their targets.
TARGETS = {"x86_64-unknown-linux-gnu": "x86_64-linux", "aarch64-unknown-linux-gnu": "aarch64-linux"}


def read(path):
    with open(f"{runs.TOP}/{path}", encoding="utf-8") as file:
        return file.read()


# Types of the header, and the names of its structs, as the crate has them.
NUMBERS = {"uint8_t": "u8", "uint16_t": "u16", "uint32_t": "u32", "uint64_t": "u64", "int32_t": "i32", "size_t": "usize", "bool": "bool", "char": "u8"}
STRUCTS = {"jatshegi_board": "Slot", **{f"jatshegi_{it.lower()}": it for it in ("Keys", "Stop", "Move", "Position", "Repair", "Report")}}


def in_rust(declared, is_field=False):
    """The type in Rust of what C declares so: an argument, or a field of a struct."""
    const, kind, pointer, array = re.fullmatch(r"\s*(const )?(?:struct )?(\w+) (\*?)\w+(?:\[(\d+)\])?\s*", declared).groups()
    ours = "core::ffi::c_void" if kind == "void" else {**NUMBERS, **STRUCTS}[kind]
    if array and is_field:
        return f"[{ours}; {array}]"
    return f"*{'const' if const else 'mut'} {ours}" if pointer or array else ours


class Declarations(unittest.TestCase):
    def test_each_function_of_the_header_is_declared(self):
        """With the types of its arguments and of its result."""
        header = re.sub(r"/\*.*?\*/", "", read("include/jatshegi.h"), flags=re.S)
        ours = read("rust/src/sys.rs")
        declared = {name: (re.findall(r": ([^,]+)", args), result or None) for name, args, result in re.findall(r"pub fn (jatshegi_\w+)\(([^)]*)\)(?: -> (\w+))?;", ours)}
        wanted = {}
        for result, name, args in re.findall(r"^(uint32_t|void) (jatshegi_\w+)\(([^)]*)\);", header, re.M):
            wanted[name] = [in_rust(it) for it in re.split(r",\s*", args) if it != "void"], NUMBERS.get(result)
        self.assertGreater(len(wanted), 70)
        del wanted["jatshegi_keys_fill"]
        self.assertEqual(declared, wanted)

    def test_each_struct_has_the_fields_of_the_header(self):
        """In order, with their types; the names may be others."""
        header = re.sub(r"/\*.*?\*/", "", read("include/jatshegi.h"), flags=re.S)
        wanted = {STRUCTS[name]: [in_rust(it, is_field=True) for it in fields.split(";") if it.strip()] for name, fields in re.findall(r"^struct (\w+) \{(.*?)^\};", header, re.M | re.S)}
        declared = {name: re.findall(r": ([^\n]+),\n", fields) for name, fields in re.findall(r"#\[repr\(C\)\]\n(?:#\[[^\n]*\n)?pub struct (\w+) \{(.*?)^\}", read("rust/src/sys.rs"), re.M | re.S)}
        self.assertEqual(declared, wanted)

    def test_each_function_is_called(self):
        called = "".join(read(f"rust/src/{name}") for name in os.listdir(f"{CRATE}/src") if name != "sys.rs")
        for name in re.findall(r"pub fn (jatshegi_\w+)\(", read("rust/src/sys.rs")):
            self.assertIn(f"sys::{name}(", called)

    def test_numbers_are_those_of_the_header(self):
        header, ours = read("include/jatshegi.h"), read("rust/src/sys.rs")
        for name, number in re.findall(r"pub const (\w+): u32 = (\d+);", ours):
            if name not in ("FEN", "PGN"):
                self.assertRegex(header, rf"JATSHEGI_{name} = {number}\b")
        for name, number in re.findall(r"pub const (MOST_\w+): usize = (\d+);", ours):
            self.assertRegex(header, rf"JATSHEGI_{name} = {number}\b")

    def test_errors_are_told_as_in_c(self):
        """Each fault of the crate has the sentence of jatshegi_status_text for its status."""
        header = dict(re.findall(r'case JATSHEGI_(\w+): return "([^"]*)";', read("include/jatshegi.h")))
        told = re.findall(r'\b(FenError|GameFault|Error)::(\w+) => "([^"]*)"', read("rust/src/codes.rs"))
        self.assertGreater(len(told), 30)
        for kind, name, text in told:
            status = {"FenError": "FEN_", "GameFault": "PGN_", "Error": ""}[kind] + re.sub(r"(?<!^)([A-Z])", r"_\1", name).upper()
            with self.subTest(status=status):
                self.assertEqual(text, header[status])

    def test_the_version_is_that_of_all(self):
        self.assertIn(f'version = "{read("VERSION").strip()}"', read("rust/Cargo.toml"))


@unittest.skipUnless(shutil.which("cargo"), "cargo is not installed: the crate for Rust is not built (apt-get install cargo)")
class Crate(unittest.TestCase):
    @classmethod
    def setUpClass(cls):
        runs.make("libraries")
        cls.folder = tempfile.TemporaryDirectory()
        cls.environment = {**os.environ, "JATSHEGI_LIB_DIR": f"{runs.TOP}/out", "CARGO_TARGET_DIR": cls.folder.name, "CARGO_TERM_COLOR": "never", "RUST_BACKTRACE": "0"}

    @classmethod
    def tearDownClass(cls):
        cls.folder.cleanup()

    def cargo(self, *words, status=0):
        run = subprocess.run(["cargo", *words], cwd=CRATE, env=self.environment, stdin=subprocess.DEVNULL, stdout=subprocess.PIPE, stderr=subprocess.PIPE, text=True, timeout=600)
        self.assertEqual(run.returncode, status, f"{run.stdout}\n{run.stderr}")
        return run.stdout

    def test_its_tests_pass(self):
        said = self.cargo("test", "--offline", "--quiet")
        self.assertGreaterEqual(sum(map(int, re.findall(r"(\d+) passed", said))), 15)

    def test_without_std(self):
        self.cargo("build", "--offline", "--quiet", "--no-default-features")

    def test_examples(self):
        self.assertEqual(self.cargo("run", "--offline", "--quiet", "--example", "perft", "--", "3").split(), ["8902"])
        with tempfile.NamedTemporaryFile("w", suffix=".pgn") as file:
            file.write('[White "a"]\n[Black "b"]\n\n1. f3 e5 2. g4 Qh4# 0-1\n\n[White "c"]\n\n1. e5 *\n')
            file.flush()
            lines = self.cargo("run", "--offline", "--quiet", "--example", "games", "--", file.name).splitlines()
        self.assertEqual(lines, ["a - b: 0-1, Checkmate after 4 plies", "no game: a word that names no legal move, or more than one, at byte 66"])

    @unittest.skipUnless(shutil.which("rustfmt"), "rustfmt is not installed")
    def test_it_is_laid_out(self):
        self.cargo("fmt", "--check")

    @unittest.skipUnless(shutil.which("cargo-clippy"), "clippy is not installed")
    def test_clippy_finds_nothing(self):
        self.cargo("clippy", "--offline", "--quiet", "--all-targets", "--", "-D", "warnings")

    def test_a_crate_of_a_users_own(self):
        with tempfile.TemporaryDirectory() as folder:
            os.mkdir(f"{folder}/src")
            with open(f"{folder}/Cargo.toml", "w", encoding="utf-8") as file:
                file.write(f'[package]\nname = "mine"\nversion = "0.1.0"\nedition = "2021"\n\n[dependencies]\njatshegi = {{ path = "{CRATE}" }}\n')
            with open(f"{folder}/src/main.rs", "w", encoding="utf-8") as file:
                file.write("fn main() -> Result<(), jatshegi::Error> {\n    println!(\"{}\", jatshegi::Board::new()?.legal_moves().len());\n    Ok(())\n}\n")
            run = subprocess.run(["cargo", "run", "--offline", "--quiet"], cwd=folder, env=self.environment, stdout=subprocess.PIPE, stderr=subprocess.PIPE, text=True, timeout=600)
            self.assertEqual((run.stdout, run.returncode), ("20\n", 0), run.stderr)


def named_rust():
    return re.search(r'^rust-version = "(.*)"$', read("rust/Cargo.toml"), re.M)[1]


def folder_of_the_named_rust():
    """A folder on the path, or Debian's, that has the Rust of Cargo.toml's `rust-version`; None if there is no such folder."""
    for folder in [*os.get_exec_path(), "/usr/bin"]:
        if all(shutil.which(tool, path=folder) for tool in ("cargo", "rustc", "rustdoc")):
            said = subprocess.run([f"{folder}/rustc", "--version"], capture_output=True, text=True).stdout
            if said.startswith(f"rustc {named_rust()}."):
                return folder
    return None


class TheNamedRust(unittest.TestCase):
    def test_its_tests_pass(self):
        """Under the Rust that Cargo.toml and RUST.md name: another one takes what this one doesn't know."""
        self.assertIn(f"needs Rust {named_rust()},", read("docs/RUST.md"))
        folder = folder_of_the_named_rust()
        if not folder:
            self.skipTest("the Rust that rust/Cargo.toml names is not installed (Debian 12: apt-get install cargo)")
        runs.make("libraries")
        with tempfile.TemporaryDirectory() as target:
            tools = {"PATH": f"{folder}:{os.environ['PATH']}", "RUSTC": f"{folder}/rustc", "RUSTDOC": f"{folder}/rustdoc"}
            environment = {**os.environ, **tools, "JATSHEGI_LIB_DIR": f"{runs.TOP}/out", "CARGO_TARGET_DIR": target, "CARGO_TERM_COLOR": "never"}
            for words in (["build", "--no-default-features"], ["test"]):
                run = subprocess.run([f"{folder}/cargo", *words, "--offline", "--quiet"], cwd=CRATE, env=environment, stdin=subprocess.DEVNULL, capture_output=True, text=True, timeout=600)
                self.assertEqual(run.returncode, 0, run.stdout + run.stderr)
            self.assertGreaterEqual(sum(map(int, re.findall(r"(\d+) passed", run.stdout))), 15)


@unittest.skipUnless(shutil.which("cargo"), "cargo is not installed: the packed crate is not built (apt-get install cargo)")
class Packed(unittest.TestCase):
    """The crate that `make packages` writes, unpacked outside of the repository."""

    @classmethod
    def setUpClass(cls):
        folder = tempfile.TemporaryDirectory()
        cls.addClassCleanup(folder.cleanup)
        cls.folder = folder.name
        loader = importlib.machinery.SourceFileLoader("packages", f"{runs.TOP}/tools/packages")
        packages = importlib.util.module_from_spec(importlib.util.spec_from_loader("packages", loader))
        loader.exec_module(packages)
        with tarfile.open(packages.crate(cls.folder, runs.VERSION, datetime.datetime.now())) as tar:
            tar.extractall(cls.folder)
        cls.crate = f"{cls.folder}/jatshegi-{runs.VERSION}"
        cls.environment = {**os.environ, "CARGO_TARGET_DIR": f"{cls.folder}/target", "CARGO_TERM_COLOR": "never"}
        cls.environment.pop("JATSHEGI_LIB_DIR", None)

    def ran(self, *words, cwd, **more):
        run = subprocess.run(words, cwd=cwd, env=self.environment | more, stdin=subprocess.DEVNULL, capture_output=True, text=True, timeout=600)
        self.assertEqual(run.returncode, 0, run.stdout + run.stderr)
        return run.stdout

    def test_it_has_the_released_library_of_each_target(self):
        for target, system in TARGETS.items():
            with open(f"{self.crate}/lib/{target}/libjatshegi.a", "rb") as packed, open(f"{runs.TOP}/release/{system}/lib/libjatshegi.a", "rb") as released:
                self.assertTrue(packed.read() == released.read(), target)

    def test_cargo_packs_it_again_with_all(self):
        listed = set(self.ran("cargo", "package", "--offline", "--allow-dirty", "--list", cwd=self.crate).split())
        here = {os.path.relpath(f"{at}/{name}", self.crate) for at, _, names in os.walk(self.crate) for name in names}
        self.assertEqual(here - listed, set())
        # (builds what it has packed)
        self.ran("cargo", "package", "--offline", "--allow-dirty", "--quiet", cwd=self.crate)

    def test_a_crate_of_a_users_own(self):
        os.makedirs(f"{self.folder}/mine/src")
        with open(f"{self.folder}/mine/Cargo.toml", "w", encoding="utf-8") as file:
            file.write(f'[package]\nname = "mine"\nversion = "0.1.0"\nedition = "2021"\n\n[dependencies]\njatshegi = {{ path = "../jatshegi-{runs.VERSION}" }}\n')
        with open(f"{self.folder}/mine/src/main.rs", "w", encoding="utf-8") as file:
            file.write("fn main() -> Result<(), jatshegi::Error> {\n    println!(\"{}\", jatshegi::Board::new()?.legal_moves().len());\n    Ok(())\n}\n")
        self.assertEqual(self.ran("cargo", "run", "--offline", "--quiet", cwd=f"{self.folder}/mine"), "20\n")

    def test_the_library_is_that_of_the_target(self):
        """What is linked is chosen by the target alone; tests/test_arm64.py runs that for arm64, since no Rust for arm64 is at hand."""
        self.ran("rustc", "--edition", "2021", "-o", f"{self.folder}/build", f"{self.crate}/build.rs", cwd=self.folder)
        for target in TARGETS:
            said = self.ran(f"{self.folder}/build", cwd=self.folder, TARGET=target, CARGO_MANIFEST_DIR=self.crate)
            self.assertIn(f"cargo:rustc-link-search=native={self.crate}/lib/{target}\n", said)
        other = subprocess.run([f"{self.folder}/build"], env={"TARGET": "x86_64-pc-windows-gnu", "CARGO_MANIFEST_DIR": self.crate}, capture_output=True, text=True)
        self.assertNotEqual(other.returncode, 0)
        self.assertIn("there is no libjatshegi.a for x86_64-pc-windows-gnu", other.stderr)


if __name__ == "__main__":
    unittest.main()

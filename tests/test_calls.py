"""The files that tools/calls writes from tools/tables are as it writes them, and the table of calls is that of the exported functions. Needs no kit."""
import os
import re
import shutil
import subprocess
import sys
import tempfile
import unittest

import runs

sys.path.insert(0, f"{runs.TOP}/tools")
import loading

CALLS = loading.load("calls")


def read(path):
    with open(f"{runs.TOP}/{path}", encoding="utf-8") as file:
        return file.read()


def checked(*words):
    ran = subprocess.run([f"{runs.TOP}/tools/calls", "--check", *words], capture_output=True, text=True)
    return ran.returncode, ran.stderr.splitlines()


class Files(unittest.TestCase):
    def test_each_is_as_the_tool_writes_it(self):
        self.assertEqual(checked(), (0, []), "make them anew: tools/calls")

    def test_a_changed_file_is_named(self):
        with tempfile.TemporaryDirectory() as folder:
            subprocess.run([f"{runs.TOP}/tools/calls", folder], check=True)
            self.assertEqual(checked(folder), (0, []))
            with open(f"{folder}/include/jatshegi.h", "a", encoding="utf-8") as file:
                file.write("\n")
            os.remove(f"{folder}/tools/libjatshegi.map")
            self.assertEqual(checked(folder), (1, [f"{path}: tools/calls writes it otherwise" for path in ("include/jatshegi.h", "tools/libjatshegi.map")]))


class Tables(unittest.TestCase):
    def setUp(self):
        self.tables = CALLS.Tables()

    def test_a_wrong_row_is_named(self):
        self.tables.calls[2].codes.append("LOST")
        self.tables.calls.append(self.tables.calls[0])
        self.assertEqual(list(self.tables.wrong()), ["jatshegi_board_new: there is no code LOST", "jatshegi_version stands twice"])

    def test_a_later_call_has_a_version_of_its_own(self):
        self.tables.calls[-1].row["since"] = "1.1"
        text = "\n".join(CALLS.symbols(self.tables))
        self.assertTrue(text.endswith("    *;\n};\nJATSHEGI_1.1 {\nglobal:\n    jatshegi_game_next;\n} JATSHEGI_1;"), text[-200:])

    def test_the_text_of_each_call_lists_its_codes(self):
        """A comment stands for one call or for several, and lists the codes of all of them."""
        names = {CALLS.full(word) for word in self.tables.kind(*CALLS.CODES)}
        for text, calls in CALLS.blocks(self.tables):
            with self.subTest(call=calls[0].name):
                codes = {re.sub(r"(FEN|PGN)_.*", r"\1", code) for call in calls for code in call.codes}
                told = {re.sub(r"(FEN|PGN)_.*", r"\1", it) for it in re.findall(r"\b[A-Z]{2}[A-Z_]*(?:\.\.\.)?", text) if it in names or it in ("FEN_...", "PGN_...")}
                self.assertLessEqual(codes, told)


class Constants(unittest.TestCase):
    """The table of words beside the constants of crates/chess_bindings."""

    def test_another_number_is_named(self):
        tables = CALLS.Tables()
        self.assertEqual(list(CALLS.against_constants(tables)), [])
        next(word for word in tables.words if word["name"] == "no_game")["number"] = "15"
        self.assertEqual(list(CALLS.against_constants(tables)), ["NO_GAME: crates/chess_bindings has 16, words.csv has 15"])


class Exports(unittest.TestCase):
    """The table of calls beside the functions that crates/chess_c exports."""

    def setUp(self):
        folder = tempfile.TemporaryDirectory()
        self.addCleanup(folder.cleanup)
        self.folder = f"{folder.name}/src"
        shutil.copytree(CALLS.EXPORTED, self.folder)
        self.addCleanup(setattr, CALLS, "EXPORTED", CALLS.EXPORTED)
        CALLS.EXPORTED = self.folder

    def differences(self):
        return list(CALLS.against_exports(CALLS.Tables()))

    def test_a_function_that_the_table_lacks_is_named(self):
        self.assertEqual(self.differences(), [])
        with open(f"{self.folder}/version.rt", "a", encoding="utf-8") as file:
            file.write('\n#[unsafe(no_mangle)]\npub extern "C" fn jatshegi_more(slot: &mut Slot) -> u32\n')
        self.assertEqual(self.differences(), ["jatshegi_more: crates/chess_c exports it, and calls.csv lacks it"])

    def test_a_function_that_is_not_exported_or_takes_something_else_is_named(self):
        os.remove(f"{self.folder}/version.rt")
        path = f"{self.folder}/kinds.rt"
        with open(path, encoding="utf-8") as file:
            text = file.read()
        with open(path, "w", encoding="utf-8") as file:
            file.write(text.replace("m: CMove", "m: u16"))
        self.assertEqual(self.differences(), [
            "jatshegi_version: crates/chess_c doesn't export it",
            "jatshegi_board_kinds: crates/chess_c exports (&mut Slot, u16, &mut u32), calls.csv has (&mut Slot, CMove, &mut u32)",
        ])

    def test_every_exported_function_is_seen(self):
        """Also one whose head is laid out otherwise."""
        sources = "".join(read(f"crates/chess_c/src/{name}") for name in os.listdir(f"{runs.TOP}/crates/chess_c/src"))
        self.assertEqual(len(re.findall(r"\bfn jatshegi_\w+", sources)), len(dict(CALLS.exported())))


if __name__ == "__main__":
    unittest.main()

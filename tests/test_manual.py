"""Each function of the header is on one page of the manual, and has its version in the shared library. (tests/test_calls.py compares the texts.)"""
import os
import re
import unittest

import runs


def read(path):
    with open(f"{runs.TOP}/{path}", encoding="utf-8") as file:
        return file.read()


class Manual(unittest.TestCase):
    def test_each_function_is_on_one_page(self):
        functions = re.findall(r"^(?:void|uint32_t) (jatshegi_\w+)\(", read("include/jatshegi.h"), re.M)
        pages = "".join(read(f"man/{name}") for name in os.listdir(f"{runs.TOP}/man") if name.startswith("jatshegi_"))
        self.assertEqual(sorted(re.findall(r"^\.Nm (jatshegi_\w+)", pages, re.M)), sorted(functions))
        self.assertEqual(sorted(re.findall(r"^\.Fn (jatshegi_\w+)", pages, re.M)), sorted(functions))

    def test_the_versions_of_the_shared_library_name_each_function(self):
        functions = re.findall(r"^(?:void|uint32_t) (jatshegi_\w+)\(", read("include/jatshegi.h"), re.M)
        self.assertEqual(sorted(re.findall(r"^    (jatshegi_\w+);$", read("tools/libjatshegi.map"), re.M)), sorted(functions))

"""What the tools in Python share: another tool as a module, the kit's folder, and the words that check a crate."""
import importlib.machinery
import importlib.util
import os
import subprocess
import sys

TOP = os.path.dirname(os.path.dirname(os.path.realpath(__file__)))


def load(tool):
    """The tool of that name as a module. (No compiled copy of it is left in the tree.)"""
    sys.dont_write_bytecode = True
    loader = importlib.machinery.SourceFileLoader(tool.replace("-", "_"), f"{TOP}/tools/{tool}")
    module = importlib.util.module_from_spec(importlib.util.spec_from_loader(loader.name, loader))
    loader.exec_module(module)
    return module


def kit():
    """The folder of the kit whose `rt` is on the path."""
    return os.path.dirname(subprocess.run(["rt", "doc"], capture_output=True, check=True, text=True).stdout.strip())


def check_words(prover, name):
    """The command that checks a crate in its folder, or in a copy of that."""
    words = [f"{prover.kit}/bin/rattle", "check", *prover.words(name)]
    if " staticlib:" in prover.lines[name]:
        words += ["--crate-type", "staticlib", *(["--target", prover.target] if prover.target else [])]
    return words

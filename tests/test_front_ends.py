"""Games played in the front ends that the README names, set up by its lines alone.

XBoard plays a game by itself where Debian's `xboard`, `polyglot`, `fairymax` and `xvfb` are installed. GNOME Chess wants somebody who moves its men:
`python3 tests/test_front_ends.py gnome` plays White by the mouse, and needs `gnome-chess`, `openbox`, `xdotool`, `xvfb` and a D-Bus session besides.
"""
import os
import re
import shutil
import subprocess
import sys
import tempfile
import time
import unittest

import runs

GAMES = "/usr/games"
ENVIRONMENT = {**os.environ, "PATH": os.environ["PATH"] + ":" + GAMES}
CHESS = f"{runs.TOP}/chess"
ENGINE = f"{runs.TOP}/release/x86_64-linux/bin/jatshegi"
# Of GNOME Chess in a screen of 1,024 by 768: the upper left corner of the board, and a square's side.
LEFT, UPPER, SIDE = 320, 191, 48


def missing(*tools):
    return [tool for tool in tools if not shutil.which(tool, path=ENVIRONMENT["PATH"])]


def lines_for(name):
    """The README's lines for a front end, with the folder of this repository."""
    with open(f"{runs.TOP}/README.md", encoding="utf-8") as page:
        block = re.search(rf"\b{name}\b[^:]*:\n\n((?:    .*\n)+)", page.read())[1]
    return block.replace("/path/to", runs.TOP)


class XBoard(unittest.TestCase):
    @unittest.skipIf(missing("xboard", "polyglot", "fairymax", "xvfb-run"), "xboard, polyglot, fairymax or xvfb-run is not installed")
    def test_a_game_to_its_end(self):
        """Against Fairy-Max, both three plies deep, so that no clock decides."""
        with tempfile.TemporaryDirectory(ignore_cleanup_errors=True) as folder:
            script = lines_for("XBoard").rstrip() + " -scp fairymax -mg 1 -tc 60 -depth 3 -sgf game.pgn -noGUI -popupExitMessage false"
            subprocess.run(
                ["xvfb-run", "-a", "sh", "-ec", script], cwd=folder, env=ENVIRONMENT, stdin=subprocess.DEVNULL, capture_output=True, timeout=300
            )
            with open(f"{folder}/game.pgn", "rb") as text:
                game = text.read()
        self.assertRegex(game, rb'\[Result "(1-0|0-1|1/2-1/2)"\]')
        self.assertNotRegex(game.lower(), rb"forfeit|illegal|exited|crash|resign")
        self.assertEqual(subprocess.run([CHESS, "pgn"], input=game, capture_output=True).returncode, 0)


def answers(moves, *more):
    """What the board answers to these lines after these moves."""
    lines = [f"play {move}" for move in moves] + [*more]
    ran = subprocess.run([CHESS, "board"], input="\n".join(lines) + "\n", capture_output=True, text=True)
    return ran.stdout.splitlines()[len(moves):]


def click(square):
    file, rank = ord(square[0]) - ord("a"), int(square[1])
    place = (LEFT + SIDE * file + SIDE // 2, UPPER + SIDE * (8 - rank) + SIDE // 2)
    subprocess.run(["xdotool", "mousemove", *map(str, place), "click", "1"], check=True)
    time.sleep(0.5)


def replies(log):
    """The moves that the engine gave, by its log."""
    with open(log, encoding="utf-8") as text:
        return re.findall(r"^bestmove (\S+)", text.read(), flags=re.M)


def play_white(log):
    """Moves White's men by the mouse until the game is over, a move again where a click was lost; prints the game's moves and its end."""
    moves = []
    while answers(moves, "status") == ["play"]:
        move = answers(moves, "best 3")[0].split()[0]
        moves.append(move)
        while len(replies(log)) * 2 < len(moves):
            click(move[:2])
            click(move[2:4])
            time.sleep(3)
            if answers(moves, "status") != ["play"]:
                break
        else:
            moves.append(replies(log)[-1])
    print(*moves, answers(moves, "status")[0], flush=True)


def gnome():
    """Plays a game in GNOME Chess, and prints it. A script between it and the engine of the README's lines keeps what is answered, two plies deep."""
    folder = tempfile.mkdtemp()
    lines = lines_for("GNOME Chess").replace(f"binary={ENGINE}", f"binary={folder}/logged")
    quick = "printf 'uci-go-option-easy-0=depth 2\\n' >> engines.conf"
    subprocess.run(["sh", "-ec", lines + quick], env={**os.environ, "HOME": folder}, check=True)
    with open(f"{folder}/logged", "w", encoding="utf-8") as script:
        script.write(f'#!/bin/sh\n{ENGINE} "$@" | tee -a {folder}/log\n')
    os.chmod(f"{folder}/logged", 0o755)
    with open(f"{folder}/game.pgn", "w", encoding="utf-8") as game:
        game.write(runs.SEVEN_TAGS % "*" + '[X-GNOME-BlackAI "Jatshegi"]\n[X-GNOME-BlackLevel "easy"]\n\n*\n')
    open(f"{folder}/log", "w", encoding="utf-8").close()
    inner = f"openbox & gnome-chess {folder}/game.pgn & sleep 12; exec {sys.executable} {os.path.realpath(__file__)} play {folder}/log"
    command = ["xvfb-run", "-a", "-s", "-screen 0 1024x768x24", "dbus-run-session", "--", "sh", "-c", inner]
    home = {**ENVIRONMENT, "HOME": folder, "XDG_CONFIG_HOME": f"{folder}/.config"}
    return subprocess.run(command, env=home, stderr=subprocess.DEVNULL, timeout=1800).returncode


if __name__ == "__main__":
    if sys.argv[1:2] == ["gnome"]:
        sys.exit(gnome())
    if sys.argv[1:2] == ["play"]:
        play_white(sys.argv[2])
    else:
        unittest.main()

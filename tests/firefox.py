"""Firefox driven by its own protocol, Marionette, since Debian has no driver for it: as much of selenium's browser as the tests of the page use."""
import base64
import json
import os
import shutil
import socket
import subprocess
import time

ELEMENT = "element-6066-11e4-a52e-4f735466cecf"
PATIENCE = 300
PREFERENCES = {
    "app.update.enabled": False, "browser.shell.checkDefaultBrowser": False, "datareporting.policy.dataSubmissionEnabled": False, "toolkit.telemetry.reportingpolicy.firstRun": False,
    "browser.download.folderList": 2, "browser.download.useDownloadDir": True, "browser.download.always_ask_before_handling_new_types": False, "ui.prefersReducedMotion": 1,
    "browser.startup.page": 0, "browser.aboutwelcome.enabled": False, "network.captive-portal-service.enabled": False, "network.connectivity-service.enabled": False,
}


def free_port():
    with socket.socket() as it:
        it.bind(("127.0.0.1", 0))
        return it.getsockname()[1]


class Element:
    def __init__(self, browser, found):
        self.browser, self.found = browser, found

    def call(self, name, **words):
        return self.browser.call(f"WebDriver:{name}", id=self.found[ELEMENT], **words)

    def click(self):
        self.call("ElementClick")

    def send_keys(self, *texts):
        self.call("ElementSendKeys", text="".join(texts).replace("\n", "\ue007"))

    def get_attribute(self, name):
        return self.browser.execute_script("return arguments[0].getAttribute(arguments[1])", self, name)

    def is_displayed(self):
        return self.browser.execute_script("return arguments[0].checkVisibility()", self)


class Firefox:
    """A Firefox of its own, with a folder for its profile, which stays when it is killed."""

    def __init__(self, folder):
        self.number, port = 0, free_port()
        profile = f"{folder}/profile"
        os.makedirs(profile, exist_ok=True)
        with open(f"{profile}/user.js", "w", encoding="utf-8") as file:
            for name, value in {**PREFERENCES, "marionette.port": port, "browser.download.dir": folder}.items():
                file.write(f"user_pref({json.dumps(name)}, {json.dumps(value)});\n")
        words = [shutil.which("firefox-esr"), "--headless", "--no-remote", "--marionette", "--profile", profile, "--width", "1200", "--height", "950", "about:blank"]
        self.process = subprocess.Popen(words, stdout=subprocess.DEVNULL, stderr=subprocess.DEVNULL, env={**os.environ, "HOME": folder})
        end = time.monotonic() + PATIENCE
        while True:
            try:
                self.socket = socket.create_connection(("127.0.0.1", port), timeout=PATIENCE)
                break
            except OSError:
                if time.monotonic() > end:
                    raise
                time.sleep(0.1)
        self.file = self.socket.makefile("rb")
        self.heard()
        self.call("WebDriver:NewSession", acceptInsecureCerts=False, timeouts={"script": PATIENCE * 1000}, unhandledPromptBehavior="accept")

    def heard(self):
        size = b""
        while not size.endswith(b":"):
            byte = self.file.read(1)
            if not byte:
                raise ConnectionError("Firefox has gone")
            size += byte
        return json.loads(self.file.read(int(size[:-1])))

    def call(self, name, **words):
        self.number += 1
        text = json.dumps([0, self.number, name, words]).encode()
        self.socket.sendall(b"%d:%s" % (len(text), text))
        _, _, error, result = self.heard()
        if error:
            raise AssertionError(f"{name}: {error['error']}: {error['message']}")
        return result["value"] if isinstance(result, dict) and set(result) == {"value"} else result

    def get(self, address):
        self.call("WebDriver:Navigate", url=address)

    def given(self, words):
        return [it.found if isinstance(it, Element) else it for it in words]

    def taken(self, found):
        if isinstance(found, list):
            return [self.taken(it) for it in found]
        return Element(self, found) if isinstance(found, dict) and ELEMENT in found else found

    def execute_script(self, text, *words):
        return self.taken(self.call("WebDriver:ExecuteScript", script=text, args=self.given(words)))

    def execute_async_script(self, text, *words):
        return self.taken(self.call("WebDriver:ExecuteAsyncScript", script=text, args=self.given(words)))

    def find_element(self, by, name):
        # (selenium's names of ways, and those of the protocol)
        using, value = ("css selector", f"[id='{name}']") if by == "id" else (by, name)
        return Element(self, self.call("WebDriver:FindElement", using=using, value=value))

    def into(self, frame):
        """Goes into a frame of the page, or with none back to the whole page."""
        self.call("WebDriver:SwitchToFrame", **({"element": frame.found[ELEMENT]} if frame else {"id": None}))

    def set_size(self, width, height):
        self.call("WebDriver:SetWindowRect", width=width, height=height)

    def save_screenshot(self, path):
        with open(path, "wb") as file:
            file.write(base64.b64decode(self.call("WebDriver:TakeScreenshot", full=False)))

    def perform(self, *keys):
        """Presses keys, all down and then all up in the reverse order."""
        actions = [{"type": "keyDown", "value": it} for it in keys] + [{"type": "keyUp", "value": it} for it in reversed(keys)]
        self.call("WebDriver:PerformActions", actions=[{"type": "key", "id": "keys", "actions": actions}])

    def drag(self, a, b, button=0):
        """Goes down with the pointer on the middle of one element and up on that of another, which may be another of its places: an element and how far from its middle."""
        (a, *by), (b, *to) = (it if isinstance(it, tuple) else (it, 0, 0) for it in (a, b))
        def moves(it, x, y):
            return {"type": "pointerMove", "duration": 50, "origin": it.found, "x": x, "y": y}

        steps = [moves(a, *by), {"type": "pointerDown", "button": button}, moves(a, by[0] + 8, by[1]), moves(b, *to), {"type": "pointerUp", "button": button}]
        self.call("WebDriver:PerformActions", actions=[{"type": "pointer", "id": "mouse", "parameters": {"pointerType": "mouse"}, "actions": steps}])

    def kill(self):
        self.process.kill()
        self.process.wait()
        self.file.close()
        self.socket.close()

    def quit(self):
        self.process.terminate()
        self.process.wait()
        self.file.close()
        self.socket.close()

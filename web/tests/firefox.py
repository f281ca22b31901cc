#!/usr/bin/env python3
"""Tries the page in headless Firefox, through Marionette, with nothing else installed.

firefox.py [PAGE] prints what differs, and last 'N passed, M failed'. What the page does is tried in Chromium;
this tests that Firefox can do it, too, from a file: begin, run, go to a state, stop, and draw.
"""
from __future__ import annotations

import base64
import json
import shutil
import socket
import subprocess
import sys
import tempfile
import time
from pathlib import Path

sys.dont_write_bytecode = True
TOP = Path(__file__).resolve().parent.parent.parent
SECONDS = 60
PROGRAMS = ("firefox-esr", "firefox")


def find_firefox() -> str | None:
    """The path of Firefox, or None."""
    found = [shutil.which(name) for name in PROGRAMS]
    return next((path for path in found if path), None)


class Firefox:
    """A browser with one page."""

    def __init__(self) -> None:
        self._folder = tempfile.TemporaryDirectory(prefix="l6-firefox-", ignore_cleanup_errors=True)
        with socket.socket() as free:
            free.bind(("127.0.0.1", 0))
            port = free.getsockname()[1]
        profile = Path(self._folder.name)
        profile.joinpath("user.js").write_text(f'user_pref("marionette.port", {port});\n')
        words = [find_firefox() or "", "--headless", "--marionette", "--no-remote", "--profile", str(profile),
                 "--width", "1400", "--height", "900", "about:blank"]
        home = {"HOME": self._folder.name, "PATH": "/usr/bin:/bin"}
        self._process = subprocess.Popen(
            words, env=home, stdin=subprocess.DEVNULL, stdout=subprocess.DEVNULL, stderr=subprocess.DEVNULL)
        self._socket = self._connected(port)
        self._number = 0
        self._read()
        self._call("WebDriver:NewSession", strictFileInteractability=False)
        self._call("WebDriver:SetTimeouts", script=SECONDS * 1000)

    def _connected(self, port: int) -> socket.socket:
        end = time.monotonic() + SECONDS
        while True:
            try:
                return socket.create_connection(("127.0.0.1", port), timeout=SECONDS)
            except OSError:
                if time.monotonic() > end:
                    raise
                time.sleep(0.1)

    def end(self) -> None:
        """Ends the browser."""
        self._socket.close()
        self._process.kill()
        self._process.wait()
        self._folder.cleanup()

    def open(self, page: Path, fragment: str = "") -> None:
        """Opens a page, and waits until it is ready."""
        self._call("WebDriver:Navigate", url="about:blank")
        self._call("WebDriver:Navigate", url=page.resolve().as_uri() + fragment)
        end = time.monotonic() + SECONDS
        while self.value("document.body.dataset.ready") != "yes":
            if time.monotonic() > end:
                raise AssertionError(f"the page is not ready: {self.value(text('run-note'))}")
            time.sleep(0.05)

    def value(self, script: str):
        """What a script of the page's answers; a promise is waited for."""
        body = f"""const done = arguments[0];
            const l6 = (window.wrappedJSObject ?? window).l6;
            Promise.resolve({script}).then(done, (it) => done('error: ' + it));"""
        return self._call("WebDriver:ExecuteAsyncScript", script=body, args=[])["value"]

    def picture(self, path: Path) -> None:
        """Writes a picture of the window."""
        path.write_bytes(base64.b64decode(self._call("WebDriver:TakeScreenshot", full=False)["value"]))

    def _call(self, command: str, **parameters: object) -> dict:
        self._number += 1
        message = json.dumps([0, self._number, command, parameters])
        self._socket.sendall(f"{len(message.encode())}:{message}".encode())
        _, _, error, result = self._read()
        if error:
            raise AssertionError(f"{command}: {error.get('message')}")
        return result

    def _read(self):
        size = b""
        while not size.endswith(b":"):
            size += self._socket.recv(1)
        wanted, data = int(size[:-1]), b""
        while len(data) < wanted:
            data += self._socket.recv(wanted - len(data))
        return json.loads(data)


def main() -> int:
    """Tries the page; answers the exit status."""
    words = sys.argv[1:]
    picture = Path(words.pop(words.index("--picture") + 1)) if "--picture" in words else None
    files = [Path(it) for it in words if not it.startswith("--")]
    page = files[0] if files else TOP / "dist" / "l6.html"
    passed = failed = 0
    browser = Firefox()
    try:
        for what, fragment, script, want in [("a canary", "", "1 + 1", 3), *TRIALS]:
            browser.open(page, fragment)
            got = browser.value(script)
            if what == "a canary":
                if got == want:
                    raise AssertionError("what is wrong is not found")
            elif got == want:
                passed += 1
            else:
                failed += 1
                print(f"{what}: got {got!r}, want {want!r}")
            if picture and fragment:
                browser.picture(picture)
    except AssertionError as error:
        failed += 1
        print(error)
    finally:
        browser.end()
    print(f"{passed} passed, {failed} failed")
    return 1 if failed else 0


def text(name: str) -> str:
    """The script of the text of an element."""
    return f"document.getElementById('{name}').textContent"


LETTERS = "parseFloat(getComputedStyle(document.getElementById('deck')).fontSize) >= 14"
STAYS = """(async () => {
    const read = () => new Map([...document.querySelectorAll('#drawing .block')].map(it => {
        const {x, y} = it.querySelector('.edge').getBoundingClientRect();
        return [it.dataset.place, [x, y]];
    }));
    while (!l6.session.chronicle) await new Promise(it => setTimeout(it, 20));
    l6.viewer.drawing.camera.follows = false;
    let [old, moved] = [read(), 0];
    for (let step = 0; step < 60; step++) {
        await l6.step();
        const now = read();
        for (const [place, [x, y]] of now)
            if (old.has(place) && Math.hypot(x - old.get(place)[0], y - old.get(place)[1]) > 1) moved++;
        old = now;
    }
    return `${moved} of ${old.size}`;
})()"""
DRAWN = "['.block', '.arrow'].map(it => document.querySelectorAll(it).length).join(' ')"
LISTED = f"l6.papers.open('listing').then(() => {text('paper')}.split('\\n')[0])"
STOPPED = f"""(async () => {{
    const until = async (holds) => {{ while (!holds()) await new Promise(done => setTimeout(done, 20)); }};
    document.getElementById('deck').value = 'L (A,A,1) L\\n';
    document.getElementById('steps').value = 1000000000;
    l6.changed();
    l6.run();
    await until(() => !document.getElementById('stop').disabled);
    l6.stop();
    await until(() => !l6.isBusy);
    return {text('run-note')};
}})()"""
LESSON = f"""(async () => {{
    const found = [];
    const element = (id) => document.getElementById(id);
    const idle = async () => {{
        do await new Promise(done => setTimeout(done, 30)); while (l6.isBusy || l6.engine.isBusy);
    }};
    const press = async (id, times = 1) => {{
        for (let time = 0; time < times; time++) {{ element(id).click(); await idle(); }}
    }};
    const open = async (key, statement) => {{
        l6.library.isChanged = false;
        l6.library.openExample(key);
        await idle();
        if (statement !== undefined)
            document.querySelector(`#gutter button[aria-label$=" ${{statement}}"]`).click();
    }};
    await open('squares');
    await press('run'); await press('start'); await press('step', 5);
    found.push({text('where')});
    await open('exercise-1');
    element('deck').value = ' (N,E,10)\\nLOOP (N,PD)(PL)(N,S,1)\\n IF (N,G,0) THEN LOOP\\n';
    l6.changed();
    await press('run');
    found.push({text('verdict')}.slice(0, 8));
    await open('fields');
    const words = new Set();
    for (let step = 0; step < 30; step++) {{
        await press('step');
        const block = element('place').value ? null : document.querySelector('.block');
        block?.dispatchEvent(new MouseEvent('click', {{bubbles: true}}));
        await idle();
        words.add([...document.querySelectorAll('#words .wordline')].map(it => it.textContent).join('|'));
    }}
    found.push(words.size > 4);
    await open('list', 1);
    await press('mark-next', 4);
    element('chain').value = 'LNC';
    element('chain').dispatchEvent(new Event('input'));
    await idle();
    found.push({text('answer')});
    await open('reverse', 8);
    await press('mark-next', 9);
    found.push(document.querySelectorAll('.block').length);
    await open('lost');
    while (!document.querySelector('.block.lost')) await press('step');
    found.push(Number(element('number').value));
    await press('back');
    found.push({text('changes')}.slice(0, 27));
    return found.join('; ');
}})()"""
LESSON_ENDS = "AT 1.5 AFTER 8 STEPS; ✓ Solved; true; = 52 “T”; 8; 13; Undone: block 1028 is lost:"
WIDE = "(l6.panes.lecture(true), getComputedStyle(document.getElementById('deck')).fontSize)"
TRIALS = [  # what is tried, the link, a script, and its answer
    ("the first deck", "", f"l6.run().then(() => {text('printed')})", "5\n== DONE AFTER 6 STEPS"),
    ("a step", "", f"l6.step().then(() => {text('where')})", "AT 0.2 AFTER 2 STEPS"),
    ("a state of an example", "#tree@137", DRAWN, "6 5"),
    ("the store", "#tree@137", text("store-text"), "6 blocks; 12 words used, 8,180 free, largest 1,024"),
    ("a listing", "", LISTED, "      1     0   (A,E,5)(A,PD)"),
    ("letters of the deck", "#tree", LETTERS, True),
    ("no block moves", "#reverse@100", STAYS, "0 of 8"),
    ("an endless deck is stopped", "", STOPPED, "stopped"),
    ("the plan for 45 minutes", "", LESSON, LESSON_ENDS),
    ("the lecture view", "#tree@137", WIDE, "18px"),
    ("the manual", "", "(l6.manual.toggle(), document.querySelectorAll('#manual-text h2').length > 5)", True),
]

if __name__ == "__main__":
    sys.exit(main())

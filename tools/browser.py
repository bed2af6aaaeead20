"""A browser without a window, driven over a pipe (Chromium's debugging protocol): one start for as many pages as are asked for."""
import base64
import json
import os
import select
import subprocess
import sys
import tempfile
from pathlib import Path

# What is newer than the profile, and can be switched off.
LATER = "HTMLProcessingInstruction,DocumentPatching"
# seconds that an answer may take
PATIENCE = 300
WORDS = ["--headless", "--no-sandbox", "--disable-gpu", "--disable-dev-shm-usage", "--disable-extensions", "--no-first-run", "--remote-debugging-pipe"]


class Browser:
    """Answers the trees of pages. It ends with the `with` that it stands in."""

    def __init__(self, program, later=LATER):
        self.folder = tempfile.TemporaryDirectory(ignore_cleanup_errors=True)
        commands, self.commands = os.pipe()
        self.answers, answers = os.pipe()
        words = [program, *WORDS, f"--disable-blink-features={later}", f"--user-data-dir={self.folder.name}", "about:blank"]
        # the browser reads commands from the file 3 and writes answers to the file 4
        shell = ["sh", "-c", f'exec "$@" 3<&{commands} 4>&{answers}', "sh", *words]
        quiet = {"stdin": subprocess.DEVNULL, "stdout": subprocess.DEVNULL, "stderr": subprocess.DEVNULL}
        self.process = subprocess.Popen(shell, pass_fds=(commands, answers), **quiet)
        os.close(commands)
        os.close(answers)
        self.unread, self.number, self.session = b"", 0, None
        # what the browser told unasked, where a domain of its protocol was switched on
        self.events = []
        self.version = self.ask("Browser.getVersion")["product"]
        target = self.ask("Target.createTarget", url="about:blank")["targetId"]
        self.session = self.ask("Target.attachToTarget", targetId=target, flatten=True)["sessionId"]
        self.run(Path(__file__).with_name("browser.js").read_text(encoding="utf-8") + "0")

    def __enter__(self):
        return self

    def __exit__(self, *_):
        os.close(self.commands)
        self.process.terminate()
        self.process.wait()
        os.close(self.answers)
        self.folder.cleanup()

    def answer(self):
        while b"\0" not in self.unread:
            if not select.select([self.answers], [], [], PATIENCE)[0]:
                sys.exit(f"the browser has not answered for {PATIENCE} seconds")
            part = os.read(self.answers, 1 << 20)
            if not part:
                sys.exit("the browser ended: is it there?")
            self.unread += part
        text, _, self.unread = self.unread.partition(b"\0")
        return json.loads(text)

    def send(self, method, **params):
        self.number += 1
        command = {"id": self.number, "method": method, "params": params, **({"sessionId": self.session} if self.session else {})}
        text = json.dumps(command).encode() + b"\0"
        while text:
            text = text[os.write(self.commands, text):]
        return self.number

    def ask(self, method, **params):
        number = self.send(method, **params)
        while True:
            answer = self.answer()
            if "method" in answer:
                self.events.append(answer)
            # a page waits until its dialog is closed
            if answer.get("method") == "Page.javascriptDialogOpening":
                self.send("Page.handleJavaScriptDialog", accept=False)
            if answer.get("id") == number:
                return answer["result"] if "result" in answer else sys.exit(f"the browser answers: {answer['error']}")

    def run(self, script, awaits=False):
        answer = self.ask("Runtime.evaluate", expression=script, returnByValue=True, awaitPromise=awaits)
        if "exceptionDetails" in answer:
            sys.exit(f"the browser's script failed: {answer['exceptionDetails']['exception'].get('description')}")
        return answer["result"].get("value")

    def promise(self, script):
        """Returns what the promise of a script gives."""
        return self.run(script, awaits=True)

    def trees(self, pages):
        """Returns the tree of each page, in the form of the html5lib tests. A page is its bytes and its context, or None."""
        told = [[base64.b64encode(text).decode(), context] for text, context in pages]
        return [it.encode() for it in self.run(f"trees({json.dumps(told)})")]

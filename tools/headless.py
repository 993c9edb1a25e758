"""Headless browsers: Chromium by the messages of its debugger over a pipe, and Firefox by Marionette, its own protocol, over a socket. The checks of
pages and the makers of pictures use them."""
import base64
import json
import os
import select
import shutil
import socket
import subprocess
import tempfile
import time


def command():
    return next((path for path in map(shutil.which, ("chromium", "chromium-browser", "google-chrome")) if path), None)


class Browser:
    """A browser with one page. Use it in a `with`; it ends with it. `events` has what the browser told of what was enabled."""

    def __init__(self, seconds=600):
        self.seconds, self.number, self.rest, self.events = seconds, 0, b"", []

    def __enter__(self):
        self.folder = tempfile.TemporaryDirectory()
        to_browser, self.ours = os.pipe()
        self.theirs, from_browser = os.pipe()

        def pass_pipes():
            # the browser reads descriptor 3 and writes 4: both are copied out of the way first
            read, write = os.dup(to_browser), os.dup(from_browser)
            os.dup2(read, 3)
            os.dup2(write, 4)
        words = [command(), "--headless", "--no-sandbox", "--disable-gpu", "--hide-scrollbars", "--remote-debugging-pipe",
                 "--disable-extensions", "--user-data-dir=" + self.folder.name, "about:blank"]
        self.process = subprocess.Popen(words, stdin=subprocess.DEVNULL, stdout=subprocess.DEVNULL, stderr=subprocess.DEVNULL,
                                        preexec_fn=pass_pipes, close_fds=False)
        os.close(to_browser)
        os.close(from_browser)
        target = self.call("Target.createTarget", session=None, url="about:blank")["targetId"]
        self.session = self.call("Target.attachToTarget", session=None, targetId=target, flatten=True)["sessionId"]
        self.call("Page.enable")
        return self

    def __exit__(self, *_):
        os.close(self.ours)
        self.process.terminate()
        self.process.wait()
        os.close(self.theirs)
        try:
            self.folder.cleanup()
        except OSError:
            pass  # the browser may still write its last files

    def message(self, end):
        """The next message of the browser."""
        while b"\0" not in self.rest:
            if not select.select([self.theirs], [], [], max(0, end - time.time()))[0]:
                raise TimeoutError("the browser doesn't answer")
            self.rest += os.read(self.theirs, 1 << 20)
        first, self.rest = self.rest.split(b"\0", 1)
        return json.loads(first)

    def call(self, method, session="own", **words):
        """Calls a method of the browser, and gives what it answers."""
        self.number += 1
        asked = {"id": self.number, "method": method, "params": words}
        if session:
            asked["sessionId"] = self.session
        data = json.dumps(asked).encode() + b"\0"
        while data:
            data = data[os.write(self.ours, data):]
        end = time.time() + self.seconds
        while True:
            message = self.message(end)
            if message.get("id") == self.number:
                if "error" in message:
                    raise RuntimeError("%s: %s" % (method, message["error"]["message"]))
                return message["result"]
            if "method" in message:
                self.events.append(message)

    def look(self, width, height, scale=1, dark=False, paper=False):
        """The size of the window, how much larger the page is shown, and which scheme of colours it prefers."""
        self.call("Emulation.setDeviceMetricsOverride", width=round(width / scale), height=round(height / scale), deviceScaleFactor=scale,
                  mobile=False)
        self.call("Emulation.setEmulatedMedia", media="print" if paper else "",
                  features=[{"name": "prefers-color-scheme", "value": "dark" if dark else "light"}])

    def go(self, address):
        """Loads a page, and waits until its scripts have run."""
        self.call("Page.navigate", url="about:blank")
        self.call("Page.navigate", url=address)
        end = time.time() + self.seconds
        while not self.run("location.protocol !== 'about:' && document.readyState === 'complete'"):
            if time.time() > end:
                raise TimeoutError("the page isn't there")
            time.sleep(0.05)

    def run(self, script):
        """The value of a script in the page; a promise is waited for."""
        done = self.call("Runtime.evaluate", expression=script, returnByValue=True, awaitPromise=True)
        if "exceptionDetails" in done:
            raise RuntimeError(done["exceptionDetails"].get("exception", {}).get("description", str(done["exceptionDetails"])))
        return done["result"].get("value")

    def press(self, key, **words):
        """Presses a key in the page."""
        text = {"text": key} if len(key) == 1 else {}
        self.call("Input.dispatchKeyEvent", type="keyDown", key=key, **text, **words)
        self.call("Input.dispatchKeyEvent", type="keyUp", key=key, **words)

    def type(self, text):
        """Types a text where the keys go."""
        self.call("Input.insertText", text=text)

    def shot(self, path):
        with open(path, "wb") as file:
            file.write(base64.b64decode(self.call("Page.captureScreenshot", format="png")["data"]))

    def paper(self, path):
        """Prints the page, and gives how many sheets it takes."""
        data = base64.b64decode(self.call("Page.printToPDF", printBackground=True, paperWidth=8.27, paperHeight=11.69)["data"])
        with open(path, "wb") as file:
            file.write(data)
        return data.count(b"/Type /Page\n") + data.count(b"/Type /Page ") + data.count(b"/Type /Page/")


def firefox_command():
    return next((path for path in map(shutil.which, ("firefox-esr", "firefox")) if path), None)


class Firefox:
    """A Firefox with one page, with the calls of Browser that a check of a page needs. Use it in a `with`; it ends with it."""

    def __init__(self, seconds=600):
        self.seconds, self.number, self.rest = seconds, 0, b""

    def __enter__(self):
        self.folder = tempfile.TemporaryDirectory()
        with socket.socket() as free:
            free.bind(("127.0.0.1", 0))
            port = free.getsockname()[1]
        settings = {"marionette.port": port, "browser.shell.checkDefaultBrowser": False, "datareporting.policy.dataSubmissionEnabled": False,
                    "app.update.enabled": False, "network.captive-portal-service.enabled": False, "network.connectivity-service.enabled": False}
        with open(os.path.join(self.folder.name, "user.js"), "w") as file:
            file.writelines(f"user_pref({json.dumps(name)}, {json.dumps(value)});\n" for name, value in settings.items())
        words = [firefox_command(), "--headless", "--marionette", "--remote-allow-system-access", "--no-remote", "--profile", self.folder.name]
        self.process = subprocess.Popen(words, stdin=subprocess.DEVNULL, stdout=subprocess.DEVNULL, stderr=subprocess.DEVNULL,
                                        env={**os.environ, "HOME": self.folder.name})
        self.socket = self.connected(port)
        self.message()
        self.call("WebDriver:NewSession", strictFileInteractability=False)
        self.call("WebDriver:SetTimeouts", script=self.seconds * 1000, pageLoad=self.seconds * 1000)
        return self

    def connected(self, port):
        """The socket of the browser, as soon as it listens."""
        end = time.time() + 60
        while True:
            try:
                return socket.create_connection(("127.0.0.1", port), timeout=self.seconds)
            except OSError:
                if time.time() > end or self.process.poll() is not None:
                    raise TimeoutError("the browser doesn't answer") from None
                time.sleep(0.1)

    def __exit__(self, *_):
        self.socket.close()
        self.process.terminate()
        self.process.wait()
        try:
            self.folder.cleanup()
        except OSError:
            pass  # the browser may still write its last files

    def message(self):
        """The next message: its length, a colon, and JSON."""
        while b":" not in self.rest:
            self.receive()
        length, _, self.rest = self.rest.partition(b":")
        while len(self.rest) < int(length):
            self.receive()
        first, self.rest = self.rest[:int(length)], self.rest[int(length):]
        return json.loads(first)

    def receive(self):
        more = self.socket.recv(1 << 20)
        if not more:
            raise RuntimeError("the browser has ended")
        self.rest += more

    def call(self, method, **words):
        """Calls a command of the browser, and gives what it answers."""
        self.number += 1
        data = json.dumps([0, self.number, method, words]).encode()
        self.socket.sendall(b"%d:%b" % (len(data), data))
        while True:
            kind, number, fault, result = self.message()
            if kind == 1 and number == self.number:
                if fault:
                    raise RuntimeError(f"{method}: {fault['message']}")
                return result

    def look(self, width, height):
        """The size of the window."""
        self.call("WebDriver:SetWindowRect", width=width, height=height)

    def go(self, address):
        self.call("WebDriver:Navigate", url="about:blank")
        self.call("WebDriver:Navigate", url=address)

    def run(self, script):
        """The value of a script in the page; a promise is waited for."""
        return self.call("WebDriver:ExecuteScript", script="return eval(arguments[0])", args=[script], newSandbox=False, sandbox=None)["value"]

    def type(self, text):
        """Types a text where the keys go."""
        element = next(iter(self.call("WebDriver:GetActiveElement")["value"].values()))
        self.call("WebDriver:ElementSendKeys", id=element, text=text)

    def messages(self):
        """What the browser's console has of pages: errors and warnings as they are written."""
        self.call("Marionette:SetContext", value="chrome")
        found = self.call("WebDriver:ExecuteScript", script="return Services.console.getMessageArray().map(it => it.message || String(it))", args=[])["value"]
        self.call("Marionette:SetContext", value="content")
        return found

    def shot(self, path):
        with open(path, "wb") as file:
            file.write(base64.b64decode(self.call("WebDriver:TakeScreenshot", full=False)["value"]))

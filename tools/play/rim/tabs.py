"""A headless Chromium, told over a pipe what to do (the Chrome DevTools Protocol), its tabs, and stations whose pages these open."""

import base64, contextlib, fcntl, itertools, json, os, subprocess, time


class Wrong(Exception):
    pass


def sure(condition, text):
    if not condition:
        raise Wrong(text)
    print(text, flush=True)


class Browser:
    """A headless Chromium, told over a pipe what to do (the Chrome DevTools Protocol)."""

    def __init__(self, program, folder):
        own_in, his_out = os.pipe()
        his_in, own_out = os.pipe()

        def hand_over():
            for at, pipe in ((3, his_in), (4, his_out)):
                os.dup2(pipe, at)

        words = [program, "--headless=new", "--no-sandbox", "--disable-gpu", "--hide-scrollbars", "--remote-debugging-pipe",
                 f"--user-data-dir={folder}", "--no-first-run", "--window-size=1280,1500", "about:blank"]
        # (the ends must not be 3 or 4 themselves)
        his_in, his_out = (fcntl.fcntl(it, fcntl.F_DUPFD, 10) for it in (his_in, his_out))
        for pipe in his_in, his_out:
            os.set_inheritable(pipe, True)
        self.process = subprocess.Popen(words, close_fds=False, preexec_fn=hand_over, stdout=subprocess.DEVNULL, stderr=subprocess.DEVNULL)
        self.input, self.output = os.fdopen(own_in, "rb", 0), os.fdopen(own_out, "wb", 0)
        self.numbers, self.rest, self.seen, self.targets = itertools.count(1), b"", [], []

    def message(self):
        while b"\0" not in self.rest:
            got = os.read(self.input.fileno(), 1 << 20)
            if not got:
                raise Wrong("the browser has ended")
            self.rest += got
        text, _, self.rest = self.rest.partition(b"\0")
        return json.loads(text)

    def ask(self, method, session=None, **params):
        number = next(self.numbers)
        request = {"id": number, "method": method, "params": params, **({"sessionId": session} if session else {})}
        self.output.write(json.dumps(request).encode() + b"\0")
        while True:
            answer = self.message()
            if answer.get("id") == number:
                if "error" in answer:
                    raise Wrong(f"{method}: {answer['error']}")
                return answer["result"]
            self.seen.append(answer)

    def close_tabs(self):
        """Closes each tab, so that none of them holds a place of a station that is begun later."""
        for target in self.targets:
            self.ask("Target.closeTarget", targetId=target)
        self.targets.clear()

    def end(self):
        self.process.terminate()
        self.process.wait(10)


class Tab:
    """A page in the browser."""

    def __init__(self, browser, url):
        self.browser = browser
        target = browser.ask("Target.createTarget", url="about:blank")["targetId"]
        browser.targets.append(target)
        self.session = browser.ask("Target.attachToTarget", targetId=target, flatten=True)["sessionId"]
        for domain in "Page", "Runtime", "Network", "Log":
            self.ask(f"{domain}.enable")
        self.size(1280)
        self.ask("Page.navigate", url=url)

    def ask(self, method, **params):
        return self.browser.ask(method, self.session, **params)

    def value(self, script):
        done = self.ask("Runtime.evaluate", expression=script, awaitPromise=True, returnByValue=True)
        if "exceptionDetails" in done:
            raise Wrong(f"{script}: {done['exceptionDetails']['text']}")
        return done["result"].get("value")

    def until(self, script, text, seconds=8):
        end = time.monotonic() + seconds
        while time.monotonic() < end:
            # (while the page is loaded, a script may find nothing yet)
            with contextlib.suppress(Wrong):
                if self.value(script):
                    print(text, flush=True)
                    return
            time.sleep(0.1)
        raise Wrong(f"not within {seconds} s: {text}: {self.value('document.body.innerText')[:600]}")

    def place(self, element):
        """The middle of an element, which is named by a script, and half of its width."""
        found = self.value(f"(() => {{ const it = {element}; it.scrollIntoView({{ block: 'center' }}); "
                           "const r = it.getBoundingClientRect(); return [r.x + r.width / 2, r.y + r.height / 2, r.width / 2] })()")
        return found

    def mouse(self, kind, x, y):
        self.ask("Input.dispatchMouseEvent", type=kind, x=x, y=y, button="left", buttons=int(kind != "mouseReleased"), clickCount=1)

    def click(self, element, seconds=0.3):
        """A click that takes as long as a person's, longer than from one snapshot to the next."""
        x, y, _ = self.place(element)
        self.mouse("mousePressed", x, y)
        time.sleep(seconds)
        self.mouse("mouseReleased", x, y)

    def key(self, name):
        code = {"Tab": 9, "Enter": 13}[name]
        text = {"text": "\r"} if name == "Enter" else {}
        self.ask("Input.dispatchKeyEvent", type="keyDown", key=name, code=name, windowsVirtualKeyCode=code, **text)
        self.ask("Input.dispatchKeyEvent", type="keyUp", key=name, code=name, windowsVirtualKeyCode=code)

    def size(self, width, height=1500, mobile=False):
        self.ask("Emulation.setDeviceMetricsOverride", width=width, height=height, deviceScaleFactor=1, mobile=mobile)

    def scheme(self, name):
        self.ask("Emulation.setEmulatedMedia", features=[{"name": "prefers-color-scheme", "value": name}])

    def picture(self, path):
        time.sleep(0.5)
        with open(path, "wb") as file:
            file.write(base64.b64decode(self.ask("Page.captureScreenshot")["data"]))

    def faults(self):
        """What the page's script or its policy complains of."""
        kinds = ("Runtime.exceptionThrown", "Log.entryAdded")
        return [it["params"] for it in self.browser.seen if it.get("method") in kinds and it.get("sessionId") == self.session]

    def requests(self):
        """The addresses that the page asks."""
        return {it["params"]["request"]["url"] for it in self.browser.seen
                if it.get("method") == "Network.requestWillBeSent" and it.get("sessionId") == self.session}


class Station:
    """A station or a plant that runs, of a file with this text."""

    def __init__(self, folder, program, kind, name, profile, *options):
        path = os.path.join(folder, f"{name}.profile")
        with open(path, "w") as file:
            file.write(profile)
        self.err, self.out = (os.path.join(folder, f"{name}.{end}") for end in ("err", "out"))
        with open(self.err, "w") as err, open(self.out, "w") as out:
            self.process = subprocess.Popen([program, kind, path, *options], stdin=subprocess.PIPE, stdout=out, stderr=err)

    def lines(self):
        with open(self.out) as file:
            return file.read().splitlines()

    def call(self, *lines):
        self.process.stdin.write("".join(f"{line}\n" for line in lines).encode())
        self.process.stdin.flush()

    def page(self):
        """The address of its page."""
        for _ in range(100):
            with open(self.err) as file:
                for line in file:
                    if " page at " in line:
                        return line.split(" page at ")[1].strip()
            time.sleep(0.05)
        raise Wrong("no line has the address of the page")

    def end(self):
        self.process.kill()
        self.process.wait()

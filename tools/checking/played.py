"""The page to play with, as a reader uses it, in headless browsers: typed, run, stepped, linked and stopped. tools/check_play calls `pages`."""
import importlib.machinery
import importlib.util
import json
import pathlib
import tempfile
import time

import headless

TOP = pathlib.Path(__file__).resolve().parent.parent.parent
FAULTY = ".region m, 2\n.phase\n.task 0, go, 0\n.reads m, 1, 2\ngo: la t0, m\n li t1, 7\n sw t1, 0(t0)\n li a7, 0\n ecal"
HOSTILE = "# <img src=x onerror=\"window.pwned=1\"> </script><script>window.pwned=2</script> {{x}} &lt;b&gt;\n.region m, 2\n.phase\n.task 0, go, 0\n.writes m\ngo: la t0, m\n sw a0, 0(t0)\n li a7, 0\n ecall\n"
# the longest runs that there are: 64 tasks, on all cores in each of four phases
LONG = ".version 2\n" + ".phase\n.forall 0, 16, go, 0, 0\n" * 4 + "go: li t0, 16000\nagain: addi t0, t0, -1\n bnez t0, again\n li a7, 0\n ecall\n"
# the largest machine: all words, two of which are used
WIDE = ".region m, 65536\n.phase\n.task 0, go, 0\n.writes m\ngo: la t0, m\n li t1, 262140\n add t1, t1, t0\n li t2, 9\n sw t2, 0(t0)\n sw t2, 0(t1)\n li a7, 0\n ecall\n"


def made_page(wasm, folder):
    """The page with this module in it; None where it can't be made."""
    loader = importlib.machinery.SourceFileLoader("play", str(TOP / "tools/play"))
    module = importlib.util.module_from_spec(importlib.util.spec_from_loader("play", loader))
    loader.exec_module(module)
    if not module.CODEMIRROR.exists():
        return None
    path = pathlib.Path(folder, "play.html")
    path.write_text(module.play(wasm.read_bytes()))
    return path


def has_sweep(denovo):
    return "sweep" in denovo._SOURCES


class Reader:
    """Somebody who uses the page in a browser."""

    def __init__(self, browser, address, check, name):
        self.browser, self.address, self.name, self.told = browser, address, name, check

    def check(self, what, holds, told=""):
        self.told(f"{self.name}: {what}", holds, told)

    def run(self, script):
        return self.browser.run(script)

    def text(self, place):
        return self.run(f"document.getElementById({json.dumps(place)})?.textContent ?? null")

    def press(self, place):
        self.run(f"document.getElementById({json.dumps(place)}).click()")

    def until(self, what, script, seconds=30):
        """Waits until a script gives something true; what it gives."""
        end = time.time() + seconds
        while not (value := self.run(script)):
            if time.time() > end:
                self.check(what, False, f"it isn't so after {seconds} s: {self.text('status')} | {(self.text('panel') or '')[:300]} | {self.text('faults')}")
                return None
            time.sleep(0.03)
        self.check(what, True)
        return value

    def open(self, hash=""):
        begun = time.time()
        self.browser.go(self.address + hash)
        self.until("the page is ready", "document.body.dataset.ready === 'yes'")
        self.until("the first text is checked", "document.getElementById('faults').textContent !== ''")
        return time.time() - begun

    def put(self, text):
        """Puts a text in, as if it were pasted over all."""
        self.run(f"(() => {{ const editor = document.querySelector('.CodeMirror').CodeMirror; editor.setValue({json.dumps(text)}); editor.focus(); "
                 "editor.setCursor(editor.lineCount(), 0); return 0; })()")

    @property
    def written(self):
        return self.run("document.querySelector('.CodeMirror').CodeMirror.getValue()")

    def panel_has(self, what, seconds=30):
        return self.until(f"the panel shows {what[:40]!r}", f"document.getElementById('panel').textContent.includes({json.dumps(what)})", seconds)

    def event(self, name):
        """Presses the button of an event by hand; the page has shown it before this returns."""
        before = self.made
        self.run(f"document.querySelector('#panel [data-event={json.dumps(name)}]').click()")
        self.until(f"the event {name} is made", f"Number(document.querySelector('#panel input[type=number]').value) === {before + 1}", 10)

    @property
    def made(self):
        return int(self.run("document.querySelector('#panel input[type=number]').value"))


def type_fault_fix_run(reader, denovo):
    reader.put("")
    reader.browser.type(FAULTY.rpartition("\n")[0])
    reader.put(FAULTY)
    reader.browser.type("c")
    reader.until("a fault is explained while the text is typed", "document.querySelector('.explained')?.textContent.includes('ecalc')")
    reader.check("the explanation is that of explain", "`ecalc` is an unknown instruction or directive".replace("`", "") in reader.run("document.querySelector('.explained').textContent"))
    reader.check("its line is marked", reader.run("document.querySelector('.faulty') !== null && document.querySelector('.fault') !== null"))
    reader.put(FAULTY)
    reader.browser.type("l")
    reader.until("the text has no fault", "document.getElementById('faults').textContent === 'no fault'")
    reader.press("run")
    reader.panel_has("trapped")
    reader.until("the trap is explained beside its line", "document.querySelector('#editor .explained .fix') !== null")
    fix = reader.run("document.querySelector('#editor .fix').textContent")
    reader.check("the fix has the declaration", ".writes m, 0, 1" in fix, fix)
    reader.run("document.querySelector('#editor .fix').click()")
    reader.until("the text is checked again", "document.getElementById('faults').textContent === 'no fault'")
    reader.check("the declaration stands behind its task", ".task 0, go, 0\n.writes m, 0, 1\n" in reader.written, reader.written)
    reader.press("run")
    reader.panel_has("✓ done")
    reader.run("document.querySelector('.CodeMirror').CodeMirror.undo()")
    reader.check("undo takes the fix back", ".writes" not in reader.written, reader.written)


def every_tab(reader, denovo):
    text = pathlib.Path("examples/signature.s").read_text()
    reader.put(text)
    reader.run("document.getElementById('seed').value = 3; document.getElementById('banks').value = 2; 0")
    reader.press("run")
    reader.panel_has("✓ done")
    trace = denovo.trace(text, seed=3, banks=2)
    view = lambda *words: denovo.call("view", [str(word) for word in words], trace)[1].decode()
    reader.panel_has(view("--mode", "answer").split("\n")[1])
    for tab, wanted in (("account", view("--mode", "account")), ("lists", view("--mode", "lists")), ("outcomes", denovo.call("outcomes", [], text)[1].decode()),
                        ("listing", denovo.call("denovo", ["--mode", "list", "--addresses", "on"], text)[1].decode())):
        reader.press("tab-" + tab)
        reader.until(f"the tab {tab} is the library’s answer", f"[...document.querySelectorAll('#panel pre')].some(it => it.textContent === {json.dumps(wanted)})")
    if has_sweep(denovo):
        reader.press("tab-seeds")
        reader.until("the tab seeds is the library’s answer", f"[...document.querySelectorAll('#panel pre')].some(it => it.textContent === {json.dumps(denovo.sweep(text, banks=2))})")
    reader.press("tab-chart")
    reader.until("the chart is shown", "document.querySelector('#panel img')?.naturalWidth > 100")
    reader.press("tab-page")
    reader.until("the page of the run is there", "document.querySelector('#panel iframe') !== null")


def by_hand(reader, denovo):
    text = pathlib.Path("examples/locked-counter.s").read_text()
    reader.put(text)
    reader.press("defaults")
    reader.press("byHand")
    reader.until("the machine is open", "document.querySelector('#panel .core') !== null")
    stepper, states = denovo.Stepper(text), []
    for turn in range(24):
        enabled = stepper.enabled
        shown = reader.run("[...document.querySelectorAll('#panel .event:not(.off)')].map(it => it.dataset.event)")
        reader.check(f"what may come before event {turn} is shown", sorted(shown) == sorted(enabled), (shown, enabled))
        states.append(reader.run("document.querySelector('#panel .words').textContent"))
        stepper.step(enabled[turn * 7 % len(enabled)])
        reader.event(stepper.events[-1])
    for word in range(2):
        value = str(stepper.word(word))
        reader.check(f"the value of word {word}", reader.run(f"document.querySelectorAll('#panel .words tbody tr')[{word}]?.cells[1].textContent ?? '0'") == value, value)
    reader.check("cores are marked in the text", reader.run("document.querySelectorAll('.here').length > 0"))
    for turn in (23, 12, 0):
        reader.run(f"(() => {{ const at = document.querySelector('#panel input[type=number]'); at.value = {turn}; at.dispatchEvent(new Event('change')); return 0; }})()")
        reader.until(f"back to event {turn}", f"document.querySelectorAll('#panel .walked').length === {turn}")
        reader.check(f"the words of event {turn} again", reader.run("document.querySelector('#panel .words').textContent") == states[turn])
    off = next(event for event in ("a 0", "i 15") if event not in denovo.Stepper(text).enabled)
    reader.run(f"document.querySelector('#panel [data-event={json.dumps(off)}]').click()")
    reader.until("what isn’t enabled says why", "document.getElementById('status').textContent.includes('may not come')")
    reason = denovo.Stepper(text).why_not(off)
    reader.check("the reason is the one of view", reason in reader.text("status"), reader.text("status"))
    button = lambda label: reader.run(f"[...document.querySelectorAll('#panel .hand button')].find(it => it.textContent === {json.dumps(label)}).click()")
    button("to the end")
    reader.until("the walk ends", "document.querySelector('#panel .over').hidden === false")
    button("Judge")
    reader.until("the referee agrees", "document.getElementById('status').textContent === 'the referee: agrees'")
    button("Replay")
    reader.panel_has("✓ done")


def links(reader, denovo):
    text = pathlib.Path("examples/touched-bit.s").read_text() + "# é ∀ 漢 </script>\n"
    reader.put(text)
    reader.run("document.getElementById('seed').value = 4294967295; document.getElementById('ways').value = 2; 0")
    reader.press("makeLink")
    reader.until("there is a link", "location.hash.startsWith('#play=')")
    hash = reader.run("location.hash")
    reader.open(hash)
    reader.check("the link has the text", reader.written == text)
    reader.check("the link has the settings", reader.run("[...document.querySelectorAll('#settings input')].map(it => it.value).join(' ')") == "4294967295 4 64 2 32768")
    for bad in ("#play=AAAA", "#play=", "#play=%3Cscript%3E", hash[:len(hash) // 2]):
        reader.open(bad)
        reader.check("a bad link opens the first text", ".region shared" in reader.written)


def exercises(reader, denovo):
    reader.put(".region x, 1\n.phase\n.task 0, go, 0\n.writes x\ngo: la t0, x\n li t1, 4\n sw t1, 0(t0)\n li a7, 0\n ecall\n")
    reader.press("makeExercise")
    fields = {"title": "Three <b>", "task": "Let `x` be 3 at the end.", "locked": "1-5", "goals": "at the end of each run x[0] is 3\nno run is stuck\nat most 0 misses"}
    for name, value in fields.items():
        reader.run(f"document.querySelector('#dialog [name={name}]').value = {json.dumps(value)}; 0")
    reader.run("document.querySelector('#dialog [value=make]').click()")
    reader.until("the exercise has a link", "location.hash.startsWith('#play=')")
    reader.open(reader.run("location.hash"))
    reader.check("its title is text", reader.run("document.querySelector('#exercise h2').firstChild.textContent") == "Three <b>")
    before = reader.written
    reader.run("(() => { const editor = document.querySelector('.CodeMirror').CodeMirror; editor.focus(); editor.setCursor(1, 0); return 0; })()")
    reader.browser.type("x")
    reader.check("a locked line stays", reader.written == before, reader.written)
    reader.press("checkGoals")
    marks = "[...document.querySelectorAll('.goals li')].map(it => it.textContent[0]).join('')"
    reader.until("one goal is open", f"{marks} === '✗✓✓'")
    reader.run("(() => { const editor = document.querySelector('.CodeMirror').CodeMirror; editor.setSelection({line: 5, ch: 8}, {line: 5, ch: 9}); editor.focus(); return 0; })()")
    reader.browser.type("3")
    reader.check("another line changes", " li t1, 3\n" in reader.written, reader.written)
    reader.press("checkGoals")
    reader.until("all goals are reached", f"{marks} === '✓✓✓'")


def stopped(reader, denovo):
    reader.put(LONG)
    if has_sweep(denovo):
        reader.press("tab-seeds")
    reader.press("run")
    reader.until("a long run tells its time", "/^running/.test(document.getElementById('status').textContent)", 60)
    begun = time.time()
    reader.press("stop")
    reader.until("it is stopped", "document.getElementById('status').textContent === 'stopped' && document.getElementById('stop').hidden", 5)
    reader.check("at once", time.time() - begun < 2, time.time() - begun)
    reader.press("tab-answer")
    reader.put(pathlib.Path("examples/store-five.s").read_text())
    reader.press("run")
    reader.panel_has("✓ done")


def hostile(reader, denovo):
    reader.put(HOSTILE)
    reader.press("tab-answer")
    reader.press("run")
    reader.panel_has("✓ done")
    for tab in ("page", "chart", "answer", "listing", "hand"):
        reader.press("tab-" + tab)
        time.sleep(0.3)
    reader.check("the text’s markup is text", "<img src=x" in reader.written)
    reader.put(HOSTILE.replace(" ecall", " <img src=x onerror=window.pwned=3>"))
    reader.until("a fault of it is explained", "document.querySelector('.explained') !== null")
    reader.check("nothing of it runs", reader.run("window.pwned === undefined && document.querySelector('main img[src=x]') === null"))


def large(reader, denovo):
    reader.put(WIDE)
    reader.press("byHand")
    reader.until("the machine of all words is open", "document.querySelector('#panel .core') !== null")
    reader.run("[...document.querySelectorAll('#panel .hand button')].find(it => it.textContent === 'to the end').click()")
    reader.until("its walk ends", "document.querySelector('#panel .over').hidden === false")
    reader.check("the words that are used are shown", reader.run("[...document.querySelectorAll('#panel .words tbody th')].map(it => it.textContent).join(' ')") == "m[0] m[65535]")
    text = pathlib.Path("examples/stale-copy.s").read_text()
    line = "# " + "x" * 1000 + "\n"
    reader.put(text + line * ((1_048_576 - len(text)) // len(line)))
    reader.until("1 MiB of text is checked", "document.getElementById('faults').textContent === 'no fault'", 60)
    reader.press("tab-answer")
    reader.press("run")
    reader.panel_has("✓ done", 60)


def looks(reader, denovo):
    """What is said to who doesn't see, and contrast, in both schemes of colours."""
    script = (TOP / "tools/check_page.js").read_text()
    low = script[script.index("function lowContrast()"):script.index("/* How many milliseconds steps take")]
    nameless = ("[...document.querySelectorAll('button, select, input, textarea, iframe, [role=tab]')].filter(it => !(it.getAttribute('aria-label') || it.title || it.textContent.trim() ||"
                " it.labels?.[0]?.textContent.trim() || it.getAttribute('placeholder'))).map(it => it.outerHTML.slice(0, 80))")
    for dark in (False, True):
        reader.browser.look(1280, 800, dark=dark)
        reader.put(FAULTY + "x")
        reader.until("a fault", "document.querySelector('.explained') !== null")
        for tab in ("answer", "account"):
            reader.press("tab-" + tab)
            reader.check(f"contrast, {tab}, {'dark' if dark else 'light'}", reader.run(f"(() => {{ {low} return lowContrast(); }})()") == [], reader.run(f"(() => {{ {low} return lowContrast(); }})()"))
        reader.put(pathlib.Path("examples/signature.s").read_text())
        reader.press("byHand")
        reader.until("by hand", "document.querySelector('#panel .core') !== null")
        reader.run("[...document.querySelectorAll('#panel .hand button')].find(it => it.textContent === '× 100').click()")
        time.sleep(0.5)
        reader.check(f"contrast, by hand, {'dark' if dark else 'light'}", (found := reader.run(f"(() => {{ {low} return lowContrast(); }})()")) == [], found)
        reader.check("all that can be pressed has a name", (found := reader.run(nameless)) == [], found)
    reader.browser.look(1280, 800)
    for key, tab in (("2", "page"), ("1", "answer"), ("6", "outcomes")):
        reader.browser.press(key, modifiers=1, code="Digit" + key)
        reader.check(f"Alt+{key} is the tab {tab}", reader.run(f"document.getElementById('tab-{tab}').getAttribute('aria-selected')") == "true")


def long_walk(reader, denovo):
    """A walk by chance is stopped, goes on, and a step takes no time that is seen."""
    reader.put(pathlib.Path("examples/realistic.s").read_text())
    reader.press("byHand")
    reader.until("the machine is open", "document.querySelector('#panel .core') !== null")
    reader.run("[...document.querySelectorAll('#panel .hand button')].find(it => it.textContent === 'to the end').click()")
    reader.until("the walk goes on", "Number(document.querySelector('#panel input[type=number]').value) >= 2000", 60)
    reader.press("stop")
    reader.until("and is stopped", "document.getElementById('stop').hidden", 10)
    made = reader.made
    time.sleep(0.3)
    reader.check("it stands still", reader.made == made)


def step_time(reader, events):
    """How many milliseconds a step by hand takes behind so many events: the middle one of nine."""
    reader.open()
    reader.put(pathlib.Path("examples/realistic.s").read_text())
    reader.press("byHand")
    reader.until("the machine is open", "document.querySelector('#panel .core') !== null")
    reader.run("[...document.querySelectorAll('#panel .hand button')].find(it => it.textContent === 'to the end').click()")
    reader.until("the walk goes on", f"Number(document.querySelector('#panel input[type=number]').value) >= {events}", 300)
    reader.press("stop")
    reader.until("and is stopped", "document.getElementById('stop').hidden", 10)
    return reader.run("""(async () => {
      const times = [], at = () => document.querySelector('#panel input[type=number]').value;
      for (let turn = 0; turn < 9; turn++) {
        const before = at(), begun = performance.now();
        document.querySelector('#panel .event:not(.off)').click();
        while (at() === before) await new Promise(done => setTimeout(done));
        document.body.getBoundingClientRect();
        times.push(performance.now() - begun);
      }
      return times.sort((one, other) => one - other)[4];
    })()""")


def rules(reader, denovo):
    """The stored runs that need a rule are opened by hand, before the event at which the rule matters."""
    for rule, at in (("forward-keeps-leaving", 22), ("grant-drops", 34)):
        name = f"experiments/rules/traces/{rule}.trace"
        events = pathlib.Path(name).read_text().rpartition("\nevents ")[2].split("\n")[1:-1]
        reader.run(f"(() => {{ const texts = document.getElementById('texts'); texts.value = {json.dumps(name)}; texts.dispatchEvent(new Event('change')); return 0; }})()")
        reader.until(f"{rule} stands at event {at}", f"document.querySelectorAll('#panel .walked').length === {at}")
        reader.check(f"{rule} has its text", f"\n{reader.written}\nevents " in pathlib.Path(name).read_text())
        reader.check(f"the next event of {rule} may come", reader.run(f"document.querySelector('#panel [data-event={json.dumps(events[at])}]:not(.off)') !== null"), events[at])


PARTS = (type_fault_fix_run, every_tab, by_hand, links, exercises, rules, stopped, long_walk, hostile, large)


def pictures(reader, folder):
    """Pictures of four states in three sizes and both schemes of colours."""
    pathlib.Path(folder).mkdir(parents=True, exist_ok=True)
    for width, height in ((1280, 800), (1024, 768), (390, 844)):
        for dark in (False, True):
            name = f"{folder}/{width}-{'dark' if dark else 'light'}"
            reader.browser.look(width, height, dark=dark)
            reader.open()
            reader.put(FAULTY + "x")
            reader.until("a fault", "document.querySelector('.explained') !== null")
            reader.browser.shot(name + "-fault.png")
            reader.put(pathlib.Path("examples/locked-counter.s").read_text())
            reader.press("run")
            reader.panel_has("✓ done")
            reader.press("tab-page")
            reader.until("the page", "document.querySelector('#panel iframe') !== null")
            time.sleep(1)
            reader.browser.shot(name + "-page.png")
            reader.press("byHand")
            reader.until("by hand", "document.querySelector('#panel .core') !== null")
            reader.run("[...document.querySelectorAll('#panel .hand button')].find(it => it.textContent === '× 100').click()")
            time.sleep(1)
            reader.browser.shot(name + "-hand.png")
            reader.run("document.querySelector('.sides [data-side=guide]').click()")
            time.sleep(0.5)
            reader.browser.shot(name + "-guide.png")


def foreign(addresses):
    """The addresses that are neither this page's own nor within the browser."""
    return [address for address in addresses if not address.startswith(("file://", "blob:", "data:", "about:"))]


def played_in_chromium(address, check, denovo, shots):
    with headless.Browser(seconds=180) as browser:
        for domain in ("Network", "Runtime", "Log"):
            browser.call(domain + ".enable")
        browser.look(1280, 800)
        reader = Reader(browser, address, check, "Chromium")
        print(f"play: Chromium opens the page and checks its first text in {reader.open():.2f} s", flush=True)
        for part in (*PARTS, looks):
            reader.open()
            part(reader, denovo)
        told = [(it["method"], it["params"]) for it in browser.events]
        requests = [params["request"]["url"] for method, params in told if method == "Network.requestWillBeSent"]
        check("Chromium: no request", not foreign(requests), foreign(requests)[:3])
        wrong = [params for method, params in told if method == "Runtime.exceptionThrown" or method == "Log.entryAdded" and params["entry"]["level"] == "error"
                 or method == "Runtime.consoleAPICalled" and params["type"] in ("error", "warning")]
        check("Chromium: no error in the console", not wrong, json.dumps(wrong)[:400])
        if shots:
            print(f"play: a step by hand behind 20,000 events takes {step_time(reader, 20_000):.1f} ms", flush=True)
            pictures(reader, shots)


def played_in_firefox(address, check, denovo):
    with headless.Firefox(seconds=180) as browser:
        browser.look(1280, 800)
        reader = Reader(browser, address, check, "Firefox")
        print(f"play: Firefox opens the page and checks its first text in {reader.open():.2f} s", flush=True)
        for part in PARTS:
            reader.open()
            part(reader, denovo)
            requests = reader.run("performance.getEntriesByType('resource').map(it => it.name)")
            check("Firefox: no request", not foreign(requests), requests[:3])
        wrong = [it for it in browser.messages() if ("play.html" in it or "blob:" in it or "srcdoc" in it) and "Error" in it]
        check("Firefox: no error in the console", not wrong, wrong[:3])


def pages(check, skip, wasm, denovo, shots=None):
    """Plays the page in each browser that is here."""
    with tempfile.TemporaryDirectory() as folder:
        page = made_page(wasm, folder)
        if page is None or denovo is None:
            return skip("the page", "there is no CodeMirror" if page is None else "there is no native library")
        address = page.as_uri()
        print(f"play: the page has {page.stat().st_size} bytes", flush=True)
        for name, command, play in (("Chromium", headless.command, lambda: played_in_chromium(address, check, denovo, shots)),
                                    ("Firefox", headless.firefox_command, lambda: played_in_firefox(address, check, denovo))):
            if command() is None:
                skip(f"the page in {name}", f"there is no {name}")
            else:
                begun = time.time()
                play()
                print(f"play: the page in {name} took {time.time() - begun:.0f} s", flush=True)

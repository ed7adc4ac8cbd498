#!/usr/bin/python3
"""Tries the page in headless Chromium: page/test.py FOLDER [SCREENSHOTS], or page/test.py ADDRESS

    make page

FOLDER is what `make page` leaves; it is served by Python on this machine. The listings and files of the graphs of
conformance/graphs.tsv are made in the browser and have their digests, and the refusals their codes; then the page is
used: expressions, errors, a file, a link, stop, downloads. With a folder for screenshots it leaves there what the page
looks like. At an ADDRESS, as http://localhost:8000/, it is seen whether the page opens with Petersen's graph, and no
more. The last line is `N passed, M failed`.

It is Debian's own Python that runs it, which has Debian's selenium. PAGE_SECONDS is how long one step may take, 120 if
it is not set.
"""

import base64
import functools
import hashlib
import http.server
import os
import shutil
import sys
import tempfile
import threading
import time

TOP = os.path.dirname(os.path.dirname(os.path.abspath(__file__)))
sys.path.insert(0, os.path.join(TOP, "conformance"))
import compare  # noqa: E402  (the folder is put on the path above)

# an expression, and what the page says of it
EXPRESSIONS = [
    ("petersen()", "10 vertices and 30 arcs", "0.0.0.1.1"), ("board(8,8,0,0,5,0,0)", "64 vertices and 336 arcs", "0.0"),
    ("simplex(8,-2,0,0,0,0,0)", "45 vertices and 216 arcs", "0.0.8"), ("complete(9)", "9 vertices and 72 arcs", "0"),
    ("board(3,4,5,0,1,0,0)", "60 vertices and 266 arcs", "0.0.0"), ("wheel(12,1,0)", "13 vertices and 48 arcs", "0"),
    ("lines(complete(5),0)", "10 vertices and 60 arcs", "3--4"), ("empty(4)", "4 vertices and 0 arcs", "0"),
    ("product(circuit(12),circuit(5),0,0)", "60 vertices and 240 arcs", "0,0"),
    ("board(1000000000,0,0,0,1,0,0)", "1000000000 vertices and 1999999998 arcs", "0"),
    # as deep as an expression may be
    (63 * "complement(" + "petersen()" + 63 * ",0,0,0)", "10 vertices and 60 arcs", "0.0.0.1.1"),
]
FAULTS = [
    ("board(3, 3,0,0,1,0,0)", "bad expression at byte 8\nboard(3, 3,0,0,1,0,0)\n        ^ here"),
    ("board(3,", "bad expression at byte 8\nboard(3,\n        ^ more is wanted here"),
    ("board(2,-251,0,0,1,0,0)", "parameters that make no sense (code 30)"),
    ("stdin", "stdin is a .gb file: drop one on this page, or choose it"),
]
FILE = b"""\
* GraphBase graph (util_types ZZZZZZZZZZZZZZ,2V,2A)
"two",2,2
* Vertices
"left",A0
"right",A1
* Arcs
V1,0,7
V0,0,-3
* Checksum -1
"""
OTHER = FILE.replace(b'"two"', b'"other"').replace(b"0,7", b"0,4").replace(b"0,-3", b"0,9")
# what is made of both: the operation, whether multi and directed, the id and the lists
PAIRS = [
    ("gunion", 0, 0, "gunion(two,other,0,0)", ["left\n  -> right, length 4", "right\n  -> left, length 4"]),
    ("gunion", 1, 0, "gunion(two,other,1,0)",
     ["left\n  -> right, length 4\n  -> right, length 7", "right\n  -> left, length 4\n  -> left, length 7"]),
    ("gunion", 0, 1, "gunion(two,other,0,1)", ["left\n  -> right, length 4", "right\n  -> left, length -3"]),
    ("intersection", 0, 1, "intersection(two,other,0,1)", ["left\n  -> right, length 7", "right\n  -> left, length 9"]),
    ("product direct", 0, 1, "product(two,other,1,1)",
     ["left,left\n  -> right,right, length 4", "left,right\n  -> right,left, length 7", "right,left\n  -> left,right, length -3",
      "right,right\n  -> left,left, length -3"]),
    ("", 0, 0, "two", ["left\n  -> right, length 7", "right\n  -> left, length -3"]),
]
# the first list of Petersen's graph
FIRST = "0.0.0.1.1\n  -> 1.1.0.0.0, length 1\n  -> 1.0.1.0.0, length 1\n  -> 0.1.1.0.0, length 1"
# what runs in the browser: of each expression the digests of its listing and its file, or the code of its refusal
DIGESTS = """
const [expressions, done] = arguments;
const digest = async (bytes) => [...new Uint8Array(await crypto.subtle.digest("SHA-256", bytes))]
  .map((byte) => byte.toString(16).padStart(2, "0")).join("");
(async () => {
  const { load } = await import("./sgb.js");
  const sgb = await load();
  const found = [];
  for (const text of expressions) {
    try {
      const graph = sgb.graph(text);
      const sums = [await digest(new TextEncoder().encode(graph.list())), await digest(graph.save())];
      found.push([graph.n, String(graph.m), ...sums]);
      graph.close();
    } catch (error) {
      found.push([error.code ?? String(error), error.byte ?? null]);
    }
  }
  done(found);
})();
"""
# what is looked at: an expression, how wide the window is, its colours, and the vertex that is chosen
SHOTS = [
    ("board(8,8,0,0,5,0,0)", 1080, "light", 27), ("petersen()", 400, "light", 0), ("board(3, 4", 400, "light", 0),
    ("gunion(petersen(),circuit(7),0,0)", 1280, "dark", 0), ("board(1000000000,0,0,0,1,0,0)", 1280, "dark", 0),
    ("simplex(8,-2,0,0,0,0,0)", 800, "light", 0), ("board(8,8,0,0,5,0,0)", 1280, "light", 0),
]
QUIET = """
const [stop, state] = ["stop", "state"].map((id) => document.getElementById(id));
return stop.disabled && !state.textContent.endsWith("..");
"""
LISTS = "return [...document.querySelectorAll('#blocks li')].map((item) => item.textContent)"
DROP = """
const data = new DataTransfer();
data.items.add(new File([arguments[0]], "two.gb"));
document.body.dispatchEvent(new DragEvent("drop", { dataTransfer: data, bubbles: true, cancelable: true }));
"""
DROP_TWO = DROP.replace('"two.gb"));', '"two.gb"));\ndata.items.add(new File([arguments[1]], "other.gb"));')
CHOOSE = """
const [operation, multi, directed] = arguments;
document.getElementById("multi").checked = multi;
document.getElementById("directed").checked = directed;
const chosen = document.getElementById("operation");
chosen.value = operation;
chosen.dispatchEvent(new Event("change"));
"""
LONG = "complement(board(300,300,0,0,1,0,0),0,0,0)"
WANTED = {"chromium": "chromium", "chromedriver": "chromium-driver"}
SECONDS = int(os.environ.get("PAGE_SECONDS", "120"))


class Tally:
    def __init__(self):
        self.passed = self.failed = 0

    def same(self, got, wanted, what):
        if got == wanted:
            self.passed += 1
        else:
            self.failed += 1
            print(f"failed: {what}: gave {str(got)[:300]}, and not {str(wanted)[:300]}", flush=True)


class Quiet(http.server.SimpleHTTPRequestHandler):
    def log_message(self, *_):
        pass


def served(folder):
    server = http.server.ThreadingHTTPServer(("localhost", 0), functools.partial(Quiet, directory=folder))
    threading.Thread(target=server.serve_forever, daemon=True).start()
    return f"http://localhost:{server.server_port}/"


class Page:
    """The page in a browser."""

    def __init__(self, webdriver, address, downloads):
        options = webdriver.ChromeOptions()
        for word in "--headless=new", "--no-sandbox", "--disable-gpu", "--disable-dev-shm-usage":
            options.add_argument(word)
        options.add_experimental_option("prefs", {"download.default_directory": downloads})
        options.set_capability("goog:loggingPrefs", {"browser": "ALL"})
        service = webdriver.chrome.service.Service(shutil.which("chromedriver"))
        self.browser = webdriver.Chrome(service=service, options=options)
        self.browser.set_script_timeout(SECONDS)
        self.address, self.downloads = address, downloads

    def at(self, name):
        return self.browser.find_element("id", name)

    def until(self, is_so):
        end = time.monotonic() + SECONDS
        while not is_so():
            if time.monotonic() > end:
                return False
            time.sleep(0.05)
        return True

    def is_quiet(self):
        return self.browser.execute_script(QUIET)

    def make(self, text):
        self.browser.execute_script("document.getElementById('text').value = arguments[0]", text)
        self.at("make").click()
        return self.until(self.is_quiet)

    def open(self, more=""):
        self.browser.get("about:blank")
        self.browser.get(self.address + more)
        return self.until(self.is_quiet)

    def taken(self, button, name):
        """What a button downloads."""
        path = os.path.join(self.downloads, name)
        if os.path.exists(path):
            os.remove(path)
        self.at(button).click()
        if not self.until(lambda: os.path.exists(path)):
            return None
        with open(path, "rb") as file:
            return file.read()

    def lists(self):
        return self.browser.execute_script(LISTS)


def conformance(page, tally):
    rows = compare.rows()
    found = page.browser.execute_async_script(DIGESTS, [row.expression for row in rows])
    for row, got in zip(rows, found):
        if isinstance(row, compare.Graph):
            tally.same(got, [row.n, str(row.m), row.sums["list"], row.sums["save"]], row.expression)
        elif row.status == 1:
            tally.same(f"Something went wrong (panic code {got[0]})!", row.line, row.expression)
        else:
            said = "expression too large" if got[0] == 100 else f"bad expression at byte {got[1]}"
            tally.same(f"sgb: {said}", row.line, row.expression[:40])
    tally.same(len(found), len(rows), "rows of the table")


def expressions(page, tally):
    listings = {row.expression: row.sums for row in compare.rows() if isinstance(row, compare.Graph)}
    for text, counts, name in EXPRESSIONS:
        page.make(text)
        tally.same(page.at("counts").text, counts, text)
        tally.same(page.lists()[0].split("\n")[0], name, f"{text}: its first vertex")
        if text in listings:
            taken = {"list": page.taken("take-list", "graph.txt"), "save": page.taken("take-file", "graph.gb")}
            for way, there in taken.items():
                digest = hashlib.sha256(there or b"").hexdigest()
                tally.same(digest, listings[text][way], f"{text}: the {way} that is taken")
            shown = "".join(block + "\n" for block in page.lists()).encode()
            tally.same(shown, (taken["list"] or b"").partition(b"\n\n")[2], f"{text}: the lists that are shown")


def great(page, tally):
    page.open("#e=board(1000000000,0,0,0,1,0,0)&v=999999950")
    lists = page.lists()
    tally.same(lists[-1:], ["999999999\n  -> 999999998, length 1"], "the last vertex of a great board")
    tally.same(len(lists), 50, "the last vertices of a great board")
    page.at("before").click()
    page.until(lambda: page.at("first").get_attribute("value") == "999999850" and page.is_quiet())
    tally.same(page.lists()[0].split("\n")[0], "999999850", "the vertices before")
    tally.same("v=999999850" in page.browser.current_url, True, "the address after a turn")


def faults(page, tally):
    for text, said in FAULTS:
        page.make(text)
        tally.same(page.browser.execute_script("return document.getElementById('fault').textContent"), said, text)
        tally.same(page.at("answer").is_displayed(), False, f"{text}: whether something is shown")
    page.make("petersen()")
    tally.same(page.at("fault").is_displayed(), False, "an error after a good expression")


def files(page, tally):
    path = os.path.join(page.downloads, "two.gb")
    with open(path, "wb") as file:
        file.write(FILE)
    page.at("file").send_keys(path)
    page.until(lambda: page.at("counts").text == "2 vertices and 2 arcs" and page.is_quiet())
    tally.same(page.lists(), ["left\n  -> right, length 7", "right\n  -> left, length -3"], "a file that is chosen")
    page.open()
    page.browser.execute_script(DROP, FILE.decode())
    page.until(lambda: page.at("counts").text == "2 vertices and 2 arcs" and page.is_quiet())
    tally.same((page.at("text").get_attribute("value"), page.at("id").text), ("stdin", "two"), "a file that is dropped")


def pairs(page, tally):
    page.open()
    tally.same(page.at("pair").is_displayed(), False, "operations without a second file")
    page.browser.execute_script(DROP_TWO, FILE.decode(), OTHER.decode())
    page.until(lambda: page.at("id").text.startswith("gunion") and page.is_quiet())
    for operation, multi, directed, title, lists in PAIRS:
        page.browser.execute_script(CHOOSE, operation, bool(multi), bool(directed))
        page.until(page.is_quiet)
        tally.same((page.at("id").text, page.lists()), (title, lists), f"two files: {operation} {multi} {directed}")
    # the first operand is the graph of the expression
    page.browser.execute_script(CHOOSE, "gunion", False, False)
    page.make("complete(3)")
    tally.same(page.at("id").text, "gunion(board(3,0,0,0,-1,0,0),other,0,0)", "an expression and a second file")
    path = os.path.join(page.downloads, "second.gb")
    with open(path, "wb") as file:
        file.write(FILE)
    page.open()
    page.at("second").send_keys(path)
    page.until(lambda: page.at("id").text.startswith("gunion") and page.is_quiet())
    tally.same(page.at("id").text, "gunion(subsets(2,1,-4,0,0,0,0x1,0),two,0,0)", "a second file that is chosen")
    with open(path, "wb") as file:
        file.write(b"no file")
    page.open()
    page.at("second").send_keys(path)
    page.until(lambda: page.at("fault").is_displayed())
    tally.same(page.at("fault").text, "the head of the .gb file is wrong (code 10)", "a second file that is none")


def links(page, tally):
    page.open("#e=wheel(5,1,0)&v=3")
    tally.same((page.at("id").text, page.at("first").get_attribute("value")), ("wheel(5,1,0)", "3"), "a link")
    page.make("complete(4)")
    page.browser.back()
    page.until(lambda: page.at("counts").text.startswith("6 ") and page.is_quiet())
    tally.same(page.at("id").text, "wheel(5,1,0)", "the page before")


def stop(page, tally):
    page.browser.execute_script("document.getElementById('text').value = arguments[0]", LONG)
    for what in "a graph", "another in its place":
        page.at("make").click()
        time.sleep(0.2)
        said = page.at("stop").is_enabled(), page.at("state").text
        tally.same(said, (True, "Making the graph .."), f"the stop button while {what} is made")
    page.at("stop").click()
    page.until(page.is_quiet)
    tally.same(page.at("state").text, "Stopped.", "what stop says")
    page.make("petersen()")
    tally.same(page.at("counts").text, "10 vertices and 30 arcs", "a graph after stop")


def drawing(page, tally):
    page.make("board(8,8,0,0,5,0,0)")
    circles = "return document.querySelectorAll('#drawing circle.vertex').length"
    tally.same(page.browser.execute_script(circles), 64, "the vertices that are drawn")
    drawn = page.at("drawing")
    for _ in range(2):
        drawn.send_keys("\ue014")  # the arrow to the right
    numbers = "return [...document.querySelectorAll('.number')].map((word) => word.textContent).join()"
    tally.same(page.browser.execute_script(numbers), "1,2,3", "the arcs of vertex 1 of a knight's board")
    chosen = "return document.querySelector('li.chosen').textContent.split('\\n')[0]"
    tally.same(page.browser.execute_script(chosen), "0.1", "the vertex that is chosen")
    picture = page.taken("take-svg", "graph.svg") or b""
    tally.same((picture.count(b"<circle"), picture.startswith(b"<svg ")), (64, True), "the picture that is taken")
    page.make("complete(3000)")
    tally.same(page.at("drawn").text[:27], "Drawn are graphs of at most", "what is said of a graph that is not drawn")
    tally.same(drawn.is_displayed(), False, "a drawing of it")


def opens(page, tally):
    """As the page opens it has Petersen's graph."""
    tally.same(page.at("counts").text, "10 vertices and 30 arcs", "how many vertices and arcs the page opens with")
    tally.same(page.lists()[:1], [FIRST], "the list that the page opens with")


def looks(page, folder):
    os.makedirs(folder, exist_ok=True)
    for k, (text, wide, scheme, vertex) in enumerate(SHOTS):
        page.browser.set_window_size(wide, 1000)
        media = {"features": [{"name": "prefers-color-scheme", "value": scheme}]}
        page.browser.execute_cdp_cmd("Emulation.setEmulatedMedia", media)
        page.open()
        page.make(text)
        if page.at("drawing").is_displayed():
            page.at("drawing").send_keys((vertex + 1) * "\ue014")
        shot = page.browser.execute_cdp_cmd("Page.captureScreenshot", {"format": "png", "captureBeyondViewport": True})
        with open(os.path.join(folder, f"page{k}.png"), "wb") as file:
            file.write(base64.b64decode(shot["data"]))


def main():
    if len(sys.argv) not in (2, 3):
        sys.exit("usage: page/test.py FOLDER [SCREENSHOTS], or page/test.py ADDRESS")
    missing = [package for command, package in WANTED.items() if not shutil.which(command)]
    try:
        from selenium import webdriver
    except ImportError:
        missing.append("python3-selenium")
    if missing:
        sys.exit(f"page/test.py: these Debian packages are wanted: apt-get install {' '.join(missing)}")
    tally, is_served = Tally(), sys.argv[1].startswith("http://")
    others = () if is_served else (conformance, expressions, great, faults, files, pairs, links, stop, drawing)
    with tempfile.TemporaryDirectory() as downloads:
        page = Page(webdriver, sys.argv[1] if is_served else served(sys.argv[1]), downloads)
        try:
            tally.same(page.open(), True, "whether the page opens")
            for part in opens, *others:
                part(page, tally)
                print(f"  {part.__name__}", flush=True)
            severe = [entry["message"] for entry in page.browser.get_log("browser") if entry["level"] == "SEVERE"]
            tally.same(severe, [], "errors of the browser")
            if len(sys.argv) == 3:
                looks(page, sys.argv[2])
        finally:
            page.browser.quit()
    print(f"{tally.passed} passed, {tally.failed} failed")
    sys.exit(1 if tally.failed else 0)


if __name__ == "__main__":
    main()

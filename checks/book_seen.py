#!/usr/bin/python3
"""Looks at the book of definitions in headless Chromium: checks/book_seen.py FOLDER

    make book

At 400 and 1,200 points, light and dark, no page is wider than the window, and ink differs from paper. Printed, the paper is
white and all examples are shown. The search box leads to a definition, and a sign that is focused shows its row of the
notation. The last line is `N passed, M failed`; without Chromium, or Debian's selenium, it is said that nothing was looked
at. It is Debian's own Python that runs it.
"""

import os
import shutil
import sys

COLOURS = "const s = getComputedStyle(document.body); return [s.color, s.backgroundColor]"
ROW = """
const sign = [...document.querySelectorAll("pre a")].find((link) => link.textContent === "∷");
sign.focus();
return getComputedStyle(sign, "::after").content;
"""
SEARCH = """
const box = document.querySelector("#search input");
box.value = "accepted_board";
box.dispatchEvent(new Event("input"));
return document.querySelector("#search li a")?.getAttribute("href") ?? "";
"""

CLOSED = "return [...document.querySelectorAll('details:not([open]) .rows')].map((rows) => rows.checkVisibility())"


def main():
    try:
        from selenium import webdriver
    except ImportError:
        webdriver = None
    if webdriver is None or not shutil.which("chromium") or not shutil.which("chromedriver"):
        print("skipped, without chromium, chromium-driver and python3-selenium: a look at the book in a browser")
        return 0
    folder, seen = os.path.abspath(sys.argv[1]), []
    options = webdriver.ChromeOptions()
    for word in ("--headless=new", "--no-sandbox", "--disable-gpu"):
        options.add_argument(word)
    driver = webdriver.Chrome(options=options)
    try:
        for name in sorted(name for name in os.listdir(folder) if name.endswith(".html")):
            driver.get(f"file://{folder}/{name}")
            for width, scheme in (400, "light"), (1200, "dark"):
                size = {"width": width, "height": 900, "deviceScaleFactor": 1, "mobile": False}
                driver.execute_cdp_cmd("Emulation.setDeviceMetricsOverride", size)
                driver.execute_cdp_cmd("Emulation.setEmulatedMedia", {"features": [{"name": "prefers-color-scheme", "value": scheme}]})
                wide = driver.execute_script("return document.documentElement.scrollWidth")
                seen.append((wide <= width, f"{name} is {wide} points wide where there are {width}"))
                ink, paper = driver.execute_script(COLOURS)
                dark = sum(map(int, paper[4:-1].split(","))) < sum(map(int, ink[4:-1].split(",")))
                seen.append((dark == (scheme == "dark"), f"{name} is not {scheme}: {ink} on {paper}"))
        driver.get(f"file://{folder}/05-generators.html")
        row, found = driver.execute_script(ROW), driver.execute_script(SEARCH)
        seen.append(("x before xs" in row, f"a sign that is focused shows {row}"))
        seen.append((found.endswith("#sgb_gen.Boards.accepted_board"), f"the search leads to {found}"))
        dark_print = {"media": "print", "features": [{"name": "prefers-color-scheme", "value": "dark"}]}
        for media, is_print in ({"media": ""}, False), (dark_print, True):
            driver.execute_cdp_cmd("Emulation.setEmulatedMedia", media)
            shown = driver.execute_script(CLOSED)
            seen.append((shown != [] and set(shown) == {is_print}, f"print {is_print}: of closed examples are shown {sum(shown)}"))
        paper = driver.execute_script(COLOURS)[1]
        seen.append((paper == "rgb(255, 255, 255)", f"printed, the paper is {paper}"))
        driver.execute_cdp_cmd("Emulation.setEmulatedMedia", {"media": ""})
        driver.get(f"file://{folder}/{found}")
        top = driver.execute_script("return document.querySelector(':target')?.getBoundingClientRect().top ?? -1")
        seen.append((0 <= top < 900, f"{found} stands {top} points below the window's top"))
    finally:
        driver.quit()
    for is_so, what in seen:
        if not is_so:
            print(f"failed: {what}")
    failed = sum(not is_so for is_so, _ in seen)
    print(f"{len(seen) - failed} passed, {failed} failed")
    return 1 if failed else 0


if __name__ == "__main__":
    sys.exit(main())

#!/usr/bin/env python3
"""Reads a page in headless chromium by selenium, and prints what test_preview_page.py looks at.

usage: read_page.py PAGE [PICTURE [WIDTH [SCHEME]]]: a picture of its beginning is written to
PICTURE, without WIDTH 1280 wide, and light without SCHEME.
"""
import base64
import json
import sys
import tempfile
from pathlib import Path

from selenium import webdriver
from selenium.webdriver.common.action_chains import ActionChains
from selenium.webdriver.common.keys import Keys
from selenium.webdriver.chrome.service import Service

WIDTHS, SCHEMES = (390, 1280), ("light", "dark")
HEIGHT, PICTURE_HEIGHT = 900, 1005

# The contrast of each text with what is painted behind it, as WCAG has it.
CONTRASTS = """
const channels = text => text.match(/[\\d.]+/g).map(Number);
const light = ([r, g, b]) => [r, g, b].map(c => c / 255)
    .map(c => c <= 0.04045 ? c / 12.92 : ((c + 0.055) / 1.055) ** 2.4)
    .reduce((sum, c, i) => sum + c * [0.2126, 0.7152, 0.0722][i], 0);
const behind = node => {
    for (let at = node; at; at = at.parentElement) {
        const found = channels(getComputedStyle(at).backgroundColor);
        if (found.length < 4 || found[3] > 0) return found;
    }
    return [255, 255, 255];
};
const found = [], walker = document.createTreeWalker(document.body, NodeFilter.SHOW_TEXT);
while (walker.nextNode()) {
    const at = walker.currentNode.parentElement, text = walker.currentNode.data.trim();
    if (!text || !at.getClientRects().length || at.closest('title')) continue;
    const style = getComputedStyle(at);
    const front = channels(at.closest('svg') ? style.fill : style.color);
    const [low, high] = [light(front), light(behind(at))].sort((a, b) => a - b);
    found.push([text, (high + 0.05) / (low + 0.05)]);
}
return found;
"""
TOO_WIDE = """
const root = document.documentElement;
return root.scrollWidth > root.clientWidth ? root.scrollWidth : 0;
"""
OPEN = "document.querySelectorAll('details').forEach(one => one.open = %s)"
# The texts of each table's cells, row by row, by the table's id.
TABLES = """
return Object.fromEntries([...document.querySelectorAll('table')].map(table => [table.id,
    [...table.tBodies[0].rows].map(row => [...row.cells].map(cell => cell.textContent))]));
"""
COUNTS = "return [...document.querySelectorAll('.cause .count')].map(one => one.textContent)"
UNNAMED = """
return [...document.querySelectorAll('table')].filter(table => !table.caption
    || [...table.tHead.rows[0].cells].some(cell => cell.scope !== 'col')).map(table => table.id);
"""


def resized(driver: webdriver.Chrome, width: int, height: int = HEIGHT) -> None:
    driver.execute_cdp_cmd("Emulation.setDeviceMetricsOverride", {
        "width": width, "height": height, "deviceScaleFactor": 1, "mobile": False})


def in_scheme(driver: webdriver.Chrome, scheme: str) -> None:
    driver.execute_cdp_cmd("Emulation.setEmulatedMedia", {
        "features": [{"name": "prefers-color-scheme", "value": scheme}]})


def opened_by_keys(driver: webdriver.Chrome) -> list[bool]:
    """Whether each row opens, by Tab and Enter, in the order of the page."""
    driver.execute_script(OPEN % "false")
    found = []
    for _ in driver.find_elements("tag name", "details"):
        ActionChains(driver).send_keys(Keys.TAB, Keys.ENTER).perform()
        found.append(driver.execute_script(
            "const at = document.activeElement;"
            "return at.tagName === 'SUMMARY' && at.parentElement.open"))
    return found


def read(driver: webdriver.Chrome) -> dict[str, object]:
    found: dict[str, object] = {"keys": opened_by_keys(driver)}
    wide, contrasts = {}, {}
    for width in WIDTHS:
        for scheme in SCHEMES:
            resized(driver, width)
            in_scheme(driver, scheme)
            driver.execute_script(OPEN % "false")
            closed = driver.execute_script(TOO_WIDE)
            driver.execute_script(OPEN % "true")
            wide[f"{width} {scheme}"] = max(closed, driver.execute_script(TOO_WIDE))
            contrasts[f"{width} {scheme}"] = driver.execute_script(CONTRASTS)
    found |= {"wide": wide, "contrasts": contrasts}
    for name, script in (("tables", TABLES), ("counts", COUNTS), ("unnamed", UNNAMED)):
        found[name] = driver.execute_script(script)
    for name in ("verdict", "summary"):
        found[name] = driver.find_element("id", name).text
    return found


def write_picture(driver: webdriver.Chrome, name: str, width: str = "1280",
                  scheme: str = "light") -> None:
    resized(driver, int(width), PICTURE_HEIGHT)
    in_scheme(driver, scheme)
    driver.execute_script(OPEN % "false")
    driver.execute_script("document.activeElement.blur(); window.scrollTo(0, 0)")
    shot = driver.execute_cdp_cmd("Page.captureScreenshot", {"format": "png"})
    Path(name).write_bytes(base64.b64decode(shot["data"]))


def main() -> None:
    page, *picture = sys.argv[1:]
    options = webdriver.ChromeOptions()
    with tempfile.TemporaryDirectory(prefix="mqroute-") as profile:
        for word in ("--headless=new", "--no-sandbox", "--disable-gpu", "--disable-dev-shm-usage",
                     "--hide-scrollbars", f"--user-data-dir={profile}"):
            options.add_argument(word)
        driver = webdriver.Chrome(service=Service("/usr/bin/chromedriver"), options=options)
        try:
            driver.get(f"file://{Path(page).resolve()}")
            print(json.dumps(read(driver)))
            if picture:
                write_picture(driver, *picture)
        finally:
            driver.quit()


if __name__ == "__main__":
    main()

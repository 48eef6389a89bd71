"""A headless Chromium that a test drives as a person would: by mouse and keyboard, through Selenium."""

from __future__ import annotations

import json
import os
import shutil
import time
from pathlib import Path
from typing import Any

from selenium import webdriver
from selenium.common.exceptions import WebDriverException
from selenium.webdriver.chrome.service import Service
from selenium.webdriver.common.action_chains import ActionChains
from selenium.webdriver.common.keys import Keys
from selenium.webdriver.support.expected_conditions import staleness_of
from selenium.webdriver.support.ui import WebDriverWait

PACKAGES = "python3-selenium chromium-driver"
SECONDS = 30
KEYS = {"Enter": Keys.ENTER, "Escape": Keys.ESCAPE, "Tab": Keys.TAB, "ArrowLeft": Keys.ARROW_LEFT,
        "ArrowUp": Keys.ARROW_UP, "ArrowRight": Keys.ARROW_RIGHT, "ArrowDown": Keys.ARROW_DOWN, "Home": Keys.HOME,
        "End": Keys.END, "PageUp": Keys.PAGE_UP, "PageDown": Keys.PAGE_DOWN}


class NoBrowser(Exception):
    """No Chromium is installed that a test can drive."""


def options() -> webdriver.ChromeOptions:
    """How Chromium is started; $CHROMIUM names one that isn't on the usual paths."""
    chosen = webdriver.ChromeOptions()
    chosen.binary_location = os.environ.get("CHROMIUM", "")
    for word in ("--headless=new", "--disable-gpu", "--disable-dev-shm-usage", "--hide-scrollbars"):
        chosen.add_argument(word)
    if os.geteuid() == 0:
        chosen.add_argument("--no-sandbox")
    chosen.set_capability("goog:loggingPrefs", {"browser": "SEVERE", "performance": "ALL"})
    return chosen


class Browser:
    """One page of one Chromium."""

    def __init__(self, width: int = 1280, height: int = 800) -> None:
        driver = shutil.which("chromedriver")
        if driver is None:
            raise NoBrowser(f"Chromium's driver isn't installed; on Debian: apt-get install -y {PACKAGES}")
        self.driver = webdriver.Chrome(service=Service(driver), options=options())
        self.driver.set_script_timeout(SECONDS)
        self.size(width, height)

    def close(self) -> None:
        self.driver.quit()

    @property
    def faults(self) -> list[str]:
        """The errors in the page since they were asked for last."""
        return [entry["message"] for entry in self.driver.get_log("browser")]

    @property
    def requests(self) -> list[str]:
        """What the page has asked for since that was asked last."""
        events = [json.loads(entry["message"])["message"] for entry in self.driver.get_log("performance")]
        return [it["params"]["request"]["url"] for it in events if it["method"] == "Network.requestWillBeSent"]

    def open(self, place: str | Path, address: str = "") -> float:
        """Opens a page by its path or its URL, and returns how many milliseconds it took to load and paint all of
        it."""
        # Otherwise an address within the same page wouldn't load it again.
        self.driver.get("about:blank")
        began = time.monotonic()
        url = str(place) if str(place).startswith("http://") else Path(place).resolve().as_uri()
        self.driver.get(url + address)
        self._is_painted()
        return (time.monotonic() - began) * 1000

    def follow(self, selector: str) -> None:
        """Clicks on what opens another page, and waits until that is loaded."""
        before = self.driver.find_element("tag name", "html")
        self.click(selector)
        # A call that meets the change of pages fails, and is made again.
        wait = WebDriverWait(self.driver, SECONDS, ignored_exceptions=[WebDriverException])
        wait.until(staleness_of(before))
        wait.until(lambda driver: driver.execute_script("return document.readyState") == "complete")
        wait.until(lambda _: self._is_painted())

    def _is_painted(self) -> bool:
        """Waits until the page is painted."""
        return self.evaluate("new Promise((done) => requestAnimationFrame(() => setTimeout(() => done(true))))")

    def call(self, method: str, **parameters: Any) -> Any:
        """Calls a method of Chromium's DevTools."""
        return self.driver.execute_cdp_cmd(method, parameters)

    def evaluate(self, expression: str) -> Any:
        """The value of an expression in the page, or of what it promises."""
        answer = self.call("Runtime.evaluate", expression=expression, returnByValue=True, awaitPromise=True)
        if "exceptionDetails" in answer:
            raise AssertionError(f"{expression}: {answer['exceptionDetails']}")
        return answer["result"].get("value")

    def text(self, selector: str) -> Any:
        return self.evaluate(f"document.querySelector({json.dumps(selector)})?.innerText ?? null")

    def click(self, selector: str, text: str | None = None) -> None:
        """Clicks with the mouse on the first visible element that matches, with this text if one is given."""
        found = self.driver.execute_script(f"""
            const text = {json.dumps(text)};
            const fits = (one) => one.getClientRects().length > 0 && (text === null || one.textContent.trim() === text);
            const one = [...document.querySelectorAll({json.dumps(selector)})].find(fits);
            one?.scrollIntoView({{ block: "nearest" }});
            return one ?? null;""")
        if found is None:
            raise AssertionError(f"nothing to click: {selector} {text or ''}")
        ActionChains(self.driver, duration=0).click(found).perform()

    def key(self, *keys: str) -> None:
        ActionChains(self.driver).send_keys(*(KEYS.get(key, key) for key in keys)).perform()

    def type(self, text: str) -> None:
        self.key(*text)

    def dark(self, is_dark: bool) -> None:
        scheme = {"name": "prefers-color-scheme", "value": "dark" if is_dark else "light"}
        self.call("Emulation.setEmulatedMedia", features=[scheme])

    def size(self, width: int, height: int) -> None:
        self.call("Emulation.setDeviceMetricsOverride", width=width, height=height, deviceScaleFactor=1, mobile=False)

    def picture(self, path: str | Path) -> None:
        self.driver.save_screenshot(str(path))

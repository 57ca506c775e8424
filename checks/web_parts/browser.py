"""A browser that is driven, as a person would: it clicks what can be seen, and types.

A page is touched when it stands: when it is loaded, and drawn for all that was typed before. What isn't there any more when it is
clicked is looked for anew. Where the driver itself breaks off, `broke_off` says so, and the test may be run once more.
"""

from __future__ import annotations

import contextlib
import os
import shutil
import tempfile
import time
from collections.abc import Callable, Iterator
from typing import TypeVar

PATIENCE = 180.0        # seconds that a page may take on a machine that has much to do
LOADS = 120             # seconds that a page may take to load
TICK = 0.03

# whether a page is loaded, and drawn for all that was typed
STANDING = """
const {wanted, drawn} = document.body ? document.body.dataset : {};
const standing = document.readyState === 'complete'
    && (!document.getElementById('fields') || wanted !== undefined && wanted === drawn);
"""
STANDS = STANDING + "return standing;"
# on a page that stands the first button or link that can be seen and begins so
BUTTON = STANDING + """
const says = arguments[0].toLowerCase();
return standing && [...document.querySelectorAll('button, a, summary, label')].find(
    one => one.checkVisibility({visibilityProperty: true}) && one.innerText.trim().toLowerCase().startsWith(says)) || null;"""
# on a page that stands the first element of a selector; what is folded around it is opened, the outermost first
AT = STANDING + """
const found = standing ? document.querySelector(arguments[0]) : null, folded = [];
for (let one = found && found.parentElement; one; one = one.parentElement)
    if (one.tagName === 'DETAILS' && !one.open) folded.unshift(one);
for (const one of folded) one.querySelector('summary').click();
if (found) found.scrollIntoView({block: 'center', behavior: 'instant'});
return found;"""

Found = TypeVar("Found")


def there() -> bool:
    """Whether a browser can be driven here."""
    with contextlib.suppress(ImportError):
        import selenium  # noqa: F401
        return bool(shutil.which("chromium") and shutil.which("chromedriver"))
    return False


def broke_off(error: BaseException) -> bool:
    """Whether an error is of the browser or its driver, as when that has died. What a page lacks isn't."""
    from selenium.common import exceptions as of
    from urllib3.exceptions import HTTPError
    lacking = (of.NoSuchElementException, of.ElementNotInteractableException, of.JavascriptException, of.InvalidSelectorException)
    return isinstance(error, (of.WebDriverException, HTTPError)) and not isinstance(error, lacking)


def dead(error: BaseException) -> bool:
    """Whether there is no browser any more that could be asked again."""
    from selenium.common.exceptions import InvalidSessionIdException
    from urllib3.exceptions import HTTPError
    return isinstance(error, (InvalidSessionIdException, HTTPError))


def passing(error: BaseException) -> bool:
    """Whether an error is of a page that is just being drawn anew, after which nothing was done."""
    from selenium.common import exceptions as of
    return isinstance(error, (of.StaleElementReferenceException, of.ElementClickInterceptedException, of.ElementNotInteractableException,
                              of.NoSuchElementException))


def gone(element: object) -> bool:
    """Whether a page with this element is shown no more."""
    from selenium.common.exceptions import StaleElementReferenceException
    try:
        element.is_displayed()  # type: ignore[attr-defined]
    except StaleElementReferenceException:
        return True
    return False


class Browser:
    """A chromium without a screen."""

    def __init__(self, width: int = 1000, height: int = 900, dark: bool = False) -> None:
        from selenium import webdriver
        from selenium.webdriver.chrome.options import Options
        from selenium.webdriver.chrome.service import Service
        options = Options()
        self.home = tempfile.mkdtemp(prefix="desk-browser-")
        for word in ("--headless=new", "--no-sandbox", "--disable-gpu", "--disable-dev-shm-usage", "--no-first-run", "--disable-extensions",
                     "--disable-background-networking", "--force-device-scale-factor=1", "--hide-scrollbars", f"--user-data-dir={self.home}",
                     f"--window-size={width},{height}"):
            options.add_argument(word)
        options.binary_location = shutil.which("chromium") or ""
        options.set_capability("goog:loggingPrefs", {"browser": "ALL"})
        self.driver = webdriver.Chrome(service=Service(shutil.which("chromedriver"), log_path=os.devnull), options=options)
        self.driver.set_page_load_timeout(LOADS)
        self.sized(width, height, dark)

    def sized(self, width: int, height: int, dark: bool = False) -> None:
        """Gives the page a size, and a light or a dark screen. Nothing glides, so that what is scrolled to stands at once."""
        self.driver.execute_cdp_cmd("Emulation.setDeviceMetricsOverride", {"width": width, "height": height, "deviceScaleFactor": 1, "mobile": width < 500})
        self.driver.execute_cdp_cmd("Emulation.setEmulatedMedia", {"features": [
            {"name": "prefers-color-scheme", "value": "dark" if dark else "light"}, {"name": "prefers-reduced-motion", "value": "reduce"}]})

    def __enter__(self) -> Browser:
        return self

    def __exit__(self, *_: object) -> None:
        self.close()

    def close(self) -> None:
        """Ends it."""
        with contextlib.suppress(Exception):
            self.driver.quit()
        shutil.rmtree(self.home, ignore_errors=True)

    # ---- looking

    def go(self, address: str) -> None:
        """Opens an address."""
        self.driver.get(address)

    def all(self, selector: str) -> list:
        """The elements of a selector."""
        return self.driver.find_elements("css selector", selector)

    def text(self, selector: str = "main") -> str:
        """What can be read in the first element of a selector; nothing where there is none."""
        for _ in range(5):
            with contextlib.suppress(Exception):
                found = self.all(selector)
                return found[0].text if found else ""
        return ""

    def head(self) -> str:
        """The heading of the page."""
        return self.text("h1")

    def number(self) -> str:
        """The number of the sheet that is shown."""
        for _ in range(5):
            with contextlib.suppress(Exception):
                return self.driver.execute_script("return document.body.dataset.number || ''")
        return ""

    def wait(self, what: Callable[[], Found], patience: float = PATIENCE) -> Found:
        """Waits until something is so; what it is. A look at a page that is just being drawn anew is taken again."""
        end = time.monotonic() + patience
        while True:
            error: Exception | None = None
            try:
                if found := what():
                    return found
            except Exception as caught:     # pylint: disable=broad-exception-caught # what is looked at may change meanwhile
                error = caught
                if dead(error):
                    raise
            if time.monotonic() > end:
                if error is not None and broke_off(error) and not passing(error):
                    raise error
                raise AssertionError(f"it didn't come about within {patience:.0f} s: the page says {self.text()[:300]!r}") from error
            time.sleep(TICK)

    def stands(self) -> bool:
        """Whether the page is loaded, and drawn for all that was typed."""
        return bool(self.driver.execute_script(STANDS))

    def settled(self) -> None:
        """Waits until the page stands."""
        self.wait(self.stands)

    def at(self, selector: str):
        """The first element of a selector on a page that stands; what it is folded in is opened."""
        return self.wait(lambda: self.driver.execute_script(AT, selector))

    def errors(self) -> list[str]:
        """What the browser complained of since the last time."""
        return [entry["message"] for entry in self.driver.get_log("browser") if entry["level"] in ("SEVERE", "WARNING")]

    # ---- doing

    def button(self, says: str):
        """The first button or link that can be seen and begins so, on a page that stands."""
        return self.driver.execute_script(BUTTON, says)

    def tried(self, do: Callable[[], object]) -> None:
        """Does something on a page that stands, once; where that is drawn anew before it is done, on the new one."""
        end = time.monotonic() + PATIENCE
        while True:
            try:
                do()
                return
            except Exception as error:
                if not passing(error) or time.monotonic() > end:
                    raise
            time.sleep(TICK)

    def click(self, says: str) -> None:
        """Clicks a button or a link by what it says."""
        self.tried(lambda: self.wait(lambda: self.button(says)).click())

    def clicks(self, selector: str) -> None:
        """Clicks the first element of a selector."""
        self.tried(lambda: self.at(selector).click())

    def types(self, selector: str, text: str) -> None:
        """Types a text into a field, in place of what stands there."""
        if self.value(selector):
            self.tried(lambda: self.at(selector).clear())
        self.tried(lambda: self.at(selector).send_keys(text))
        self.wait(lambda: self.value(selector) == text)

    def value(self, selector: str) -> str:
        """What stands in a field."""
        return self.wait(lambda: self.driver.execute_script(STANDING + """
            const one = document.querySelector(arguments[0]);
            return standing && one ? [one.value] : null;""", selector))[0]

    def ticks(self, selector: str) -> None:
        """Ticks a box where it isn't ticked; the page stands again when it is."""
        if not self.at(selector).is_selected():
            self.clicks(selector)
        self.wait(lambda: self.at(selector).is_selected())

    def chooses(self, selector: str, text: str) -> None:
        """Chooses an option by what it says."""
        def option():
            return next(one for one in self.at(selector).find_elements("css selector", "option") if one.get_property("text").strip() == text)
        self.wait(option)
        self.tried(lambda: option().click())

    def leads(self, do: Callable[[], object]) -> None:
        """Does what leads to another page, and waits until that one stands."""
        before = self.driver.find_element("css selector", "html")
        do()
        self.wait(lambda: gone(before) and self.stands())

    def key(self, key: str) -> None:
        """Presses a key."""
        from selenium.webdriver.common.action_chains import ActionChains
        ActionChains(self.driver).send_keys(key).perform()

    def next_sheet(self, before: str) -> str:
        """Waits until another sheet than one is shown, and nothing takes a while; its number."""
        def shown() -> str:
            now = self.number()
            return now if now and now != before and self.stands() and not self.all("#share") else ""
        return self.wait(shown)

    def does(self, says: str) -> None:
        """Clicks a button, and waits for what it leads to."""
        before = self.number()
        self.click(says)
        self.next_sheet(before)

    def picture(self, path: str, whole: bool = True) -> None:
        """Takes a picture of the page."""
        import base64
        size = self.driver.execute_cdp_cmd("Page.getLayoutMetrics", {})["cssContentSize"]
        clip = {"x": 0, "y": 0, "width": size["width"], "height": size["height"], "scale": 1}
        made = self.driver.execute_cdp_cmd("Page.captureScreenshot", {"captureBeyondViewport": whole, **({"clip": clip} if whole else {})})
        with open(path, "wb") as file:
            file.write(base64.b64decode(made["data"]))


@contextlib.contextmanager
def browser(**words: object) -> Iterator[Browser]:
    """A browser for a while."""
    with Browser(**words) as made:
        yield made

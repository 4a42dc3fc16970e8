"""A headless Chromium that looks at the desk, as a person would."""

from __future__ import annotations

import os
from io import BytesIO
from pathlib import Path
from typing import Any, Callable, List

from PIL import Image  # type: ignore[import]
from selenium import webdriver
from selenium.common.exceptions import StaleElementReferenceException
from selenium.webdriver.chrome.options import Options
from selenium.webdriver.chrome.service import Service
from selenium.webdriver.common.by import By
from selenium.webdriver.common.keys import Keys
from selenium.webdriver.remote.webelement import WebElement
from selenium.webdriver.support.wait import WebDriverWait

BROWSER, DRIVER = "/usr/bin/chromium", "/usr/bin/chromedriver"
WORDS = ("headless=new", "disable-gpu", "hide-scrollbars", "disable-lcd-text", "disable-background-networking", "no-first-run")
SECONDS = 120
COLOURS = 256


def begin() -> Any:
    """A browser without a window. Chromium's own sandbox stays, but for root, for whom there is none."""
    options: Any = Options()
    options.binary_location = BROWSER
    for word in WORDS:
        options.add_argument(f"--{word}")
    if os.geteuid() == 0:
        options.add_argument("--no-sandbox")
    options.set_capability("goog:loggingPrefs", {"browser": "ALL"})
    return webdriver.Chrome(service=Service(DRIVER), options=options)


class Page:
    """The desk in a browser."""

    def __init__(self, driver: Any, address: str, pictures: Path) -> None:
        self.driver, self.pictures = driver, pictures
        self.kept: List[Path] = []
        driver.get_log("browser")
        self.resize(1360, 940)
        self.scheme("light")
        driver.get(address)
        self.until(lambda: "Close" in self.text("#close"))

    def resize(self, width: int, height: int) -> None:
        given = {"width": width, "height": height, "deviceScaleFactor": 1, "mobile": False}
        self.driver.execute_cdp_cmd("Emulation.setDeviceMetricsOverride", given)

    def scheme(self, name: str) -> None:
        features = [{"name": "prefers-color-scheme", "value": name}, {"name": "prefers-reduced-motion", "value": "reduce"}]
        self.driver.execute_cdp_cmd("Emulation.setEmulatedMedia", {"features": features})

    def until(self, holds: Callable[[], Any]) -> Any:
        """Waits until it holds."""
        return WebDriverWait(self.driver, SECONDS, 0.05, [StaleElementReferenceException]).until(lambda _: holds())

    def all(self, selector: str) -> List[WebElement]:
        found: List[WebElement] = self.driver.find_elements(By.CSS_SELECTOR, selector)
        return found

    def one(self, selector: str) -> WebElement:
        found: WebElement = self.driver.find_element(By.CSS_SELECTOR, selector)
        return found

    def text(self, selector: str) -> str:
        return self.one(selector).text

    def click(self, selector: str) -> None:
        self.one(selector).click()

    def scene(self, name: str, variables: int) -> None:
        """Opens a scene by the menu."""
        if self.one("#menu").get_attribute("open") is None:
            self.click("#menu summary")
        self.click(f"[data-scene={name}]")
        self.until(lambda: self.text("#values-title") == f"Values of {variables} variables")

    def cell(self, variable: str, value: Any) -> WebElement:
        """The cell of a value."""
        return self.one(f'#grid [aria-label^="{variable} {value}: "]')

    def state(self, variable: str, value: Any) -> str:
        """What its cell says."""
        label = self.cell(variable, value).get_attribute("aria-label") or ""
        return label.split(": ")[1]

    def tick(self, constraint: str) -> None:
        self.click(f'li[data-name="{constraint}"] input[type=checkbox]')

    def lit(self) -> List[str]:
        return [element.get_attribute("data-name") or "" for element in self.all("#list .lit")]

    def line(self, text: str) -> None:
        """Types a line and sends it."""
        self.one("#line").send_keys(text, Keys.ENTER)

    def said(self, text: str) -> None:
        """Waits until the status says it."""
        self.until(lambda: text in self.text("#status"))

    def picture(self, name: str) -> Path:
        """Keeps a picture."""
        self.driver.execute_script("document.activeElement && document.activeElement.blur()")
        file = self.pictures / f"{name}.png"
        save(Image.open(BytesIO(self.driver.get_screenshot_as_png())).convert("RGB"), file)
        self.kept.append(file)
        return file

    def errors(self) -> List[str]:
        """What the browser has complained of, with what its policy has kept out."""
        return [entry["message"] for entry in self.driver.get_log("browser") if entry["level"] in ("SEVERE", "WARNING")]


def save(image: Any, file: Path) -> None:
    """Keeps a picture in its most frequent colours, and what has another one in the nearest of these."""
    frequent = sorted(image.getcolors(image.width * image.height), reverse=True)[:COLOURS]
    palette = Image.new("P", (1, 1))
    palette.putpalette([part for _, colour in frequent for part in colour])
    image.quantize(palette=palette, dither=Image.Dither.NONE).save(file, optimize=True)

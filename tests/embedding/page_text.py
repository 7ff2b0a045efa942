#!/usr/bin/python3
"""Prints what a page says in its element pre, by Chromium. It waits for that, for two minutes at most.

    page_text.py URL
"""
import pathlib
import sys

sys.path.insert(0, str(pathlib.Path(__file__).resolve().parents[1] / "web"))
# pylint: disable=wrong-import-position
from engines import Chromium
from selenium.webdriver.support.ui import WebDriverWait

engine = Chromium()
try:
    engine.driver.get(sys.argv[1])
    said = WebDriverWait(engine.driver, 120).until(
        lambda driver: driver.find_element("css selector", "pre").get_property("textContent"))
finally:
    engine.close()
print(said, end="")

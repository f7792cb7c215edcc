"""The browser's own picture of a page, in pieces of a screen each. Not proved."""
import pathlib
import re

import answers
import chromium

MOST = 24


def address(page):
    """The address of a page that is one or is a file."""
    return page if re.match(r"(?:https?|file|data|about):", page) else pathlib.Path(page).resolve().as_uri()


def photograph(page, world, height, edges, seconds=60):
    """A page at a viewport width and a default font size: images of what lies in a rectangle in units, each with its place in units.

    The browser scrolls and shows a screen at a time, since it forgets the default font size when it shows more than its screen at once.
    Gives nothing where there is no browser or it does not answer.
    """
    left, top, right, bottom = (it / answers.UNITS for it in edges)
    found, x, y = {}, max(left, 0), max(top, 0)
    try:
        with chromium.Chromium(seconds) as browser:
            browser.screen(world[0], height)
            browser.call("Page.setFontSizes", fontSizes={"standard": world[1], "fixed": max(1, round(world[1] * 13 / 16))})
            browser.open(address(page))
            browser.run("document.fonts.ready.then(() => true)")
            while y < bottom and len(found) < MOST:
                place = tuple(browser.run(f"scrollTo({x}, {y}); [scrollX, scrollY]"))
                if place not in found:
                    found[place] = browser.call("Page.captureScreenshot", format="png")["data"]
                x += world[0]
                if x >= right:
                    x, y = max(left, 0), y + height
    except (chromium.BrowserFault, OSError):
        return None
    size = (world[0] * answers.UNITS, height * answers.UNITS)
    return [(f"data:image/png;base64,{image}", tuple(round(it * answers.UNITS) for it in place), size) for place, image in found.items()]

"""Drives the browser from a page to its job: the scripts of tools/page, run one after the other at several worlds. Not proved."""
import itertools
import json
import pathlib

import answers
import fidelity

FOLDER = pathlib.Path(__file__).resolve().parent / "page"
PARTS = ("findings", "css", "media", "sheets", "tree", "texts", "fonts", "values", "judge", "job")
SAYINGS = ("preformatted", "breaks", "media", "generated", "position", "blocks", "values", "faces", "spacing", "cases", "kerning")


class NoJob(Exception):
    """Why there is no job of a page, as one line."""


def script():
    """The scripts as one text, for a browser's console too: it names `jobFromPage`."""
    texts = [(FOLDER / f"{name}.js").read_text(encoding="utf-8") for name in PARTS]
    return ('// Makes a job file for vizlog of the page in which it runs. Not proved.\nvar jobFromPage = (() => {\n"use strict";\n\n'
            + "\n".join(texts)
            + "\nreturn Object.assign(shown, {step, statements, declarations, declarationKind, selectorKind, Media, bothMet});\n})();\n")


def call(browser, *words):
    found = browser.run(f"jobFromPage.step({', '.join(map(json.dumps, words))})")
    if isinstance(found, dict) and "fault" in found:
        raise NoJob(found["fault"])
    return found


def options_of(job):
    """What is asked for so that a page's job has the range of another."""
    told = {name: list(side) for name, side in zip(answers.AXES, job.sides())}
    return {**told, "height": job.heights[0], "assert": job.rule}


def sides_of(options):
    """The sides of the range that is asked for: widths, sizes, and heights where there are any."""
    return [options[name] for name in answers.AXES if options.get(name)]


def stand(browser, world, height):
    """Makes the browser's viewport and default font size those of a world, with its own height where it has one."""
    browser.screen(world[0], world[2] if len(world) > 2 else height)
    browser.call("Page.setFontSizes", fontSizes={"standard": world[1], "fixed": max(1, round(world[1] * 13 / 16))})


def corners(options):
    return sorted(set(itertools.product(*sides_of(options))))


def selectors(browser, url, options):
    """Opens the page and begins: the selectors of the assertion with the number of elements that each meets."""
    browser.screen(min(max(options["widths"][0], 1024), options["widths"][1]), options["height"])
    browser.open(url)
    browser.run(script())
    found = call(browser, "begin", {**options, "texts": browser.sheets()})["selectors"]
    return list(dict(found).items())


def export(browser, options, at=None):
    """The job of the page that was begun, with what is told of it and where the browser lays its boxes, at the worlds that are told, or at five
    and at some at both ends of each step between two widths that its sheets ask for."""
    for world in corners(options):
        stand(browser, world, options["height"])
        call(browser, "glance")
    steps = call(browser, "ends", at or fidelity.worlds(*sides_of(options)))
    at = at or [tuple(it) for it in steps]
    for world in at:
        stand(browser, world, options["height"])
        call(browser, "look", world)
    stand(browser, at[0], options["height"])
    call(browser, "prepare")
    for number, world in enumerate(at):
        stand(browser, world, options["height"])
        call(browser, "settle", number)
    stand(browser, at[0], options["height"])
    found = call(browser, "finish")
    call(browser, "end")
    return {**found, "worlds": at}

#!/usr/bin/env python3
"""pictures.py [--check] [FOLDER]: makes the pictures of the documents, by default in docs/pictures/. With --check it says which of the stored ones differ, and
ends with 1 where one does.

They are SVG files in plain shapes and text, each with a title and a description for who can't see it, on a ground of their own, light or dark as the reader's
page is. To look at one as PNG: rsvg-convert -w 1400 FILE.svg -o FILE.png.
"""
import html
import os
import sys

ROOT = os.path.dirname(os.path.dirname(os.path.abspath(__file__)))
STYLE = """
text { font: 13px sans-serif; fill: #1c2733 }
.head { font-weight: bold; font-size: 14px }
.code { font-family: monospace; font-size: 12.5px }
.small { font-size: 12px; fill: #44515e }
.ground { fill: #ffffff; stroke: #d0d7de }
.box { fill: #eef3f8; stroke: #4a6785 }
.good { fill: #e3f3e6; stroke: #3b7d4a }
.bad { fill: #fbe7e4; stroke: #a8483a }
.plain { fill: #f2f2f2; stroke: #8a8a8a }
.page { fill: #2b6cb0 }
.kept { fill: #7b3fa0 }
.old { fill: #9aa5b1 }
.line { fill: none; stroke: #4a5967; stroke-width: 1.4 }
.thin { fill: none; stroke: #8a96a3; stroke-width: 1; stroke-dasharray: 3 3 }
.tip { fill: #4a5967 }
@media (prefers-color-scheme: dark) {
  text { fill: #dde4ea }
  .small { fill: #aab6c1 }
  .ground { fill: #161b22; stroke: #3a444e }
  .box { fill: #1f2f40; stroke: #7fa6cc }
  .good { fill: #1b3523; stroke: #72b983 }
  .bad { fill: #40211c; stroke: #e0897a }
  .plain { fill: #2b3036; stroke: #87919b }
  .page { fill: #6fb1f0 }
  .kept { fill: #c79be8 }
  .old { fill: #6b7680 }
  .line { stroke: #aab6c1 }
  .thin { stroke: #6b7680 }
  .tip { fill: #aab6c1 }
}
"""


class Picture:
    """The elements of a picture of this size, with its title and its description."""

    def __init__(self, width, height, title, description):
        self.width, self.height, self.title, self.description, self.parts = width, height, title, description, []

    def text(self, x, y, words, name="", anchor="start"):
        self.parts.append(f'<text x="{x}" y="{y}" class="{name}" text-anchor="{anchor}" xml:space="preserve">{html.escape(words, quote=False)}</text>')

    def lines(self, x, y, rows, name="", anchor="start", step=17):
        for k, row in enumerate(rows):
            self.text(x, y + step * k, row, name, anchor)

    def rect(self, x, y, width, height, name, round_by=0):
        self.parts.append(f'<rect x="{x}" y="{y}" width="{width}" height="{height}" rx="{round_by}" class="{name}"/>')

    def box(self, x, y, width, height, head, rows=(), name="box"):
        """A box with a heading and rows of small text below it."""
        self.rect(x, y, width, height, name, 8)
        self.text(x + width / 2, y + 22, head, "head", "middle")
        self.lines(x + width / 2, y + 42, rows, "small", "middle", 16)

    def path(self, way, name="line"):
        self.parts.append(f'<path d="{way}" class="{name}"/>')

    def arrow(self, way, x, y, to):
        """A line with its tip at a place, which points right, left, up or down."""
        self.path(way)
        tips = {"right": (-9, -4, -9, 4), "left": (9, -4, 9, 4), "down": (-4, -9, 4, -9), "up": (-4, 9, 4, 9)}
        a, b, c, d = tips[to]
        self.parts.append(f'<path d="M{x} {y}L{x + a} {y + b}L{x + c} {y + d}Z" class="tip"/>')

    def svg(self):
        size = f'viewBox="0 0 {self.width} {self.height}" width="{self.width}" height="{self.height}"'
        head = f'<svg xmlns="http://www.w3.org/2000/svg" {size} role="img" aria-labelledby="t d">'
        title = f'<title id="t">{html.escape(self.title)}</title>\n<desc id="d">{html.escape(self.description)}</desc>'
        ground = f'<rect x="0.5" y="0.5" width="{self.width - 1}" height="{self.height - 1}" rx="6" class="ground"/>'
        return "\n".join([head, title, f"<style>{STYLE}</style>", ground, *self.parts, "</svg>", ""])


def life_of_a_job():
    it = Picture(
        1000, 470, "The life of a job",
        "No job stands in JOB. program with status 0 ends there again, with the image in the device. begin with status 0 leads to: a job stands. So "
        "does program that was stopped or ended with 8 to 12, unless it ended before the job began or after its end. From there resume or --gang with "
        "status 0 leads back, with the image in the device, and revert with status 0, with the old contents. A resume or revert that is stopped or ends"
        " with 1 or 8 to 12 leaves the job standing; program and begin answer 7, job: open. A byte of JOB that another hand changes leads to a damaged "
        "job, which status, resume, revert, program and begin answer with 7; with JOB moved away no job stands.",
    )
    it.box(60, 170, 230, 110, "No job", ["JOB isn't there or is empty,", "or its job is closed;", "status prints: job none"], "good")
    it.box(710, 170, 230, 110, "A job stands", ["board, FLM file, image and", "old contents are whole in JOB;", "status prints: job open"])
    it.box(710, 370, 230, 76, "Damaged", ["status, resume, revert, program", "and begin answer 7"], "bad")
    it.arrow("M290 185H710", 710, 185, "right")
    it.lines(500, 162, ["program: killed, power lost, 8 to 12", "begin: 0"], "", "middle", 16)
    it.text(500, 202, "(or it ended before the job began, or after its end:", "small", "middle")
    it.text(500, 218, "status says which)", "small", "middle")
    it.arrow("M710 243H290", 290, 243, "left")
    it.text(500, 238, "resume, --gang: 0   (the device has its image)", "", "middle")
    it.arrow("M710 269H290", 290, 269, "left")
    it.text(500, 264, "revert: 0   (the device is as before the job)", "", "middle")
    it.arrow("M110 170V108H240V170", 240, 170, "down")
    rows = ["program: 0   (the device has its image)", "any command: 1 to 6   (no job begins)", "program, begin: 8, 9   (before the job began)"]
    it.lines(60, 34, [*rows, "resume, revert: 7   job: none"])
    it.arrow("M760 170V108H890V170", 890, 170, "down")
    it.lines(640, 68, ["resume, revert: killed, power lost, 1, 8 to 12", "program, begin: 7   job: open"])
    it.arrow("M825 280V370", 825, 370, "down")
    it.lines(815, 318, ["a byte of JOB is changed", "by another hand"], "", "end")
    it.arrow("M710 408H175V280", 175, 280, "up")
    it.text(440, 400, "keep a copy of JOB, and move it away", "", "middle")
    it.text(440, 427, "(then the device takes a whole image)", "small", "middle")
    return it


# What a plan of the program printed, for a device of 4 sectors of 256 bytes in pages of 64.
PLAN = ["plan sectors", "erase 08000000 256", "program 08000000 64", "program 08000040 64", "program 08000200 64", "cost 130"]


def device_row(it, y, pages, words):
    """Four sectors of four pages, each page with what it holds: o old, i of the image, k kept and written back."""
    it.text(960, y - 10, words, "head", "end")
    for sector in range(4):
        x = 40 + 232 * sector
        it.rect(x, y, 224, 46, "plain", 3)
        for page in range(4):
            for k, mark in enumerate(pages[4 * sector + page]):
                width = 52 if len(pages[4 * sector + page]) == 1 else 25
                it.rect(x + 2 + 56 * page + 27 * k, y + 6, width, 34, {"o": "old", "i": "page", "k": "kept"}[mark])
        for page in range(1, 4):
            it.path(f"M{x + 56 * page} {y}V{y + 46}", "thin")


def device_and_plan():
    it = Picture(
        1000, 440, "A device before and after a job, with its plan",
        "A device of four sectors of 256 bytes from 08000000 on, in pages of 64. Before: old bytes fill pages 0 and 1 of sector 0 and page 0 of sector "
        "3. The image has bytes in page 1 of sector 0 and in page 0 of sector 2. The plan erases sector 0, programs its pages 0 and 1, where the old "
        "bytes that the image doesn't cover are written back, and programs page 0 of sector 2. Sectors 1 and 3 stay as they are. Cost 130: a sector is "
        "100, a page 10.",
    )
    device_row(it, 50, ["o", "o", "", "", "", "", "", "", "", "", "", "", "o", "", "", ""], "before")
    device_row(it, 300, ["k", "ik", "", "", "", "", "", "", "i", "", "", "", "o", "", "", ""], "after")
    for k, line in enumerate(PLAN):
        it.text(420, 136 + 22 * k, line, "code")
    it.arrow("M410 154H152V104", 152, 104, "up")
    it.text(162, 147, "sector 0 is erased: a byte changes", "small")
    it.arrow("M410 176H68V292", 68, 292, "down")
    it.text(76, 192, "old bytes are written back", "small")
    it.arrow("M410 198H124V292", 124, 292, "down")
    it.text(132, 216, "the image, and old bytes beside it", "small")
    it.arrow("M578 220H600V262H532V292", 532, 292, "down")
    it.text(608, 244, "sector 2 is blank there: no erasure", "small")
    for k, address in enumerate(["08000000", "08000100", "08000200", "08000300"]):
        it.text(40 + 232 * k, 366, address, "code")
    x = 40
    for name, words in (("old", "old contents"), ("page", "bytes of the image"), ("kept", "old bytes, kept and written back"), ("plain", "empty")):
        it.rect(x, 395, 24, 18, name, 2)
        it.text(x + 32, 409, words)
        x += 70 + 8 * len(words)
    return it


# Parts of an address line: place, width, look, address, name, size, what it is. The board has two regions, and the registers of FPEC.
ADDRESSES = [
    (110, 190, "good", "08000000", "region 1", "4 sectors of 256", ""),
    (330, 110, "good", "1FFFF000", "region 2", "1 of 256", ""),
    (470, 160, "box", "20000000", "RAM", "4,096 bytes", "code, data, page, stack"),
    (660, 100, "plain", "40003000", "quiet", "1,024 bytes", "loads give 0"),
    (790, 110, "bad", "40022000", "registers", "64 bytes", "the controller"),
]


def addresses_and_cells():
    it = Picture(
        1000, 330, "Addresses and cells",
        "One line of addresses from 00000000 to FFFFFFFF, not to scale: region 1 at 08000000 with four sectors of 256 bytes, region 2 at 1FFFF000 with "
        "256 bytes, RAM at 20000000, a quiet range at 40003000 in which loads give 0 and stores keep nothing, and the registers of the controller at "
        "40022000. No two share an address. Below it the file CELLS of 1,280 bytes: bytes 0 to 1023 are the cells of region 1, and bytes 1024 to 1279 "
        "those of region 2. RAM, registers and quiet ranges have no bytes in CELLS.",
    )
    it.text(20, 30, "addresses, as the algorithm sees them (not to scale)", "head")
    it.path("M20 96H980")
    it.text(20, 88, "00000000", "code")
    it.text(980, 88, "FFFFFFFF", "code", "end")
    for x, width, name, address, word, size, more in ADDRESSES:
        it.rect(x, 72, width, 48, name, 4)
        it.text(x + width / 2, 93, word, "head", "middle")
        it.text(x + width / 2, 111, size, "small", "middle")
        it.text(x, 64, address, "code")
        it.text(x + width / 2, 138, more, "small", "middle")
    it.rect(110, 220, 400, 44, "good", 3)
    it.text(310, 247, "cells of region 1", "", "middle")
    it.rect(510, 220, 100, 44, "good", 3)
    it.text(560, 247, "of region 2", "", "middle")
    for x, word in ((110, "byte 0"), (510, "byte 1024"), (610, "end: 1280")):
        it.text(x, 282, word, "code")
    for way in ("M110 120V220", "M300 120L510 220", "M330 120L510 220", "M440 120L610 220"):
        it.path(way, "thin")
    it.text(20, 314, "the file CELLS: one byte a cell, the first region of the board first", "head")
    it.lines(720, 215, ["RAM, registers and quiet ranges", "have no bytes in CELLS.", "An address in none of the parts", "is a bus fault."], "small")
    return it


# What to do by status: the status, the line, the look, and what helps.
TREE = [
    ("0", "done", "good", ["nothing: no job stands"]),
    ("1", "out of memory", "box", ["free memory, then the same words;", "7 and job: open then: resume"]),
    ("2 to 6", "usage, files, board", "box", ["no job began: put right what the line", "names, then the same words"]),
    ("7", "job: open", "box", ["a job stands: status shows it;", "resume to its image, or revert"]),
    ("7", "job: none", "box", ["no job stands: verify says", "whether the device has its image"]),
    ("7", "N cells wanted", "box", ["CELLS is that of another device:", "take the pair of JOB and CELLS"]),
    ("7", "damaged, not a job", "bad", ["keep a copy of JOB and move it away;", "then program a whole image"]),
    ("8, 9", "store or device fault", "box", ["another program, the disk, permissions; then", "status: open: resume; none: verify"]),
    ("10", "output fault", "box", ["where standard output goes; then", "status: open: resume; none: verify"]),
    ("11, 12", "call, mismatch", "box", ["a job stands: resume once more, or revert;", "if neither ends, there are ways out"]),
    ("13", "differs", "box", ["verify, compare: nothing was changed;", "program brings the image in"]),
    ("none", "killed, power lost", "box", ["status: open: resume, or revert;", "none: verify"]),
]


def it_stopped():
    said = "; ".join(f"status {status}, {line}: {' '.join(rows)}" for status, line, _, rows in TREE)
    it = Picture(1000, 92 + 64 * 6, "It stopped: what now?", f"A tree by the status and the line on standard error. {said}.")
    it.box(330, 14, 340, 50, "It stopped: what now?", ["by the status, and the line on standard error"], "plain")
    it.path(f"M500 64V{84 + 64 * 5 + 27}")
    for k, (status, line, name, rows) in enumerate(TREE):
        x, y = (516, 20)[k < 6], 84 + 64 * (k % 6)
        it.path(f"M{500 if k >= 6 else 484} {y + 27}h16")
        it.rect(x, y, 464, 54, name, 6)
        it.text(x + 12, y + 23, status, "head")
        it.text(x + 12, y + 42, line, "small")
        it.lines(x + 160, y + 23, rows, "", "start", 18)
    return it


PICTURES = {"job_life": life_of_a_job, "device_and_plan": device_and_plan, "addresses_and_cells": addresses_and_cells, "it_stopped": it_stopped}


def main(words):
    checks, folder = "--check" in words, next((it for it in words if not it.startswith("-")), f"{ROOT}/docs/pictures")
    os.makedirs(folder, exist_ok=True)
    differ = []
    for name, made in PICTURES.items():
        path, text = f"{folder}/{name}.svg", made().svg()
        if not checks:
            with open(path, "w", encoding="utf-8") as it:
                it.write(text)
        elif not os.path.isfile(path) or open(path, encoding="utf-8").read() != text:
            differ.append(path)
    for it in differ:
        print(f"{it} isn't what is made now")
    return int(bool(differ))


if __name__ == "__main__":
    sys.exit(main(sys.argv[1:]))

"""An extension of Sphinx: the directive `tikz` shows its content as a picture, and has the options of `image`, such as `alt`.

It wants tikzsvg-mark beside it, which calls tikzsvg, or what the environment variable TIKZSVG names.
"""

import hashlib
import os
import re
import shutil
import subprocess
from pathlib import Path

from docutils import nodes
from docutils.parsers.rst.directives.images import Image
from sphinx.transforms.post_transforms.images import ImageConverter
from sphinx.util import logging
from sphinx.util.docutils import SphinxDirective

MARK = Path(__file__).with_name("tikzsvg-mark")
PIXELS = {"px": 1, "pt": 4 / 3, "pc": 16, "in": 96, "cm": 96 / 2.54, "mm": 96 / 25.4, "em": 16, "ex": 8}
logger = logging.getLogger(__name__)


class Tikz(Image, SphinxDirective):
    required_arguments = 0
    has_content = True

    def run(self):
        done = subprocess.run(["sh", MARK, "-"], input="\n".join(self.content).encode(), capture_output=True)
        if done.returncode:
            return [self.fault(done.stderr.decode(errors="replace"))]
        if "alt" not in self.options:
            logger.info("tikz: a picture has no text that stands for it (:alt:)", location=self.get_location())
            self.options["alt"] = ""
        self.set_size(done.stdout)
        self.arguments = [self.place_of(done.stdout).replace(" ", "\\ ")]
        return super().run()

    def set_size(self, svg):
        """Makes numbers of pixels of `width`, `height` and `scale`: of an SVG Sphinx takes the points for something else,
        and hands the numbers of all units to a browser, which takes them for pixels."""
        percent = self.options.pop("scale", None)
        if percent and not {"width", "height"} & self.options.keys():
            self.options["width"] = re.search(rb'width="([^"]*)"', svg)[1].decode()
        for side in {"width", "height"} & self.options.keys():
            number, unit = re.fullmatch(r"([\d.]+) *(\S*)", self.options[side]).groups()
            number = float(number) * PIXELS.get(unit, 1) * (percent or 100) / 100
            self.options[side] = f"{number:.5g}" + ("" if unit in PIXELS else unit)

    def place_of(self, svg):
        """The place of a picture's file, seen from the pages' folder, as Sphinx wants it. It lies among the build's own files."""
        folder = Path(self.env.doctreedir, "tikz")
        folder.mkdir(parents=True, exist_ok=True)
        file = folder / f"tikz-{hashlib.sha1(svg).hexdigest()[:16]}.svg"
        file.write_bytes(svg)
        return "/" + Path(os.path.relpath(file, self.env.srcdir)).as_posix()

    def fault(self, said):
        """What tikzsvg-mark said, at its line of the page: in `-:2:13: PathSyntax` the 2 counts from the content's first."""
        said, _, marked = said.strip().partition("\n")
        place = re.match(r"-:(\d+):", said)
        line = self.content_offset + int(place[1]) if place else self.lineno
        shown = [nodes.literal_block(marked, marked, language="none")] if marked else []
        return self.state_machine.reporter.error(f"tikzsvg: {said}", *shown, line=line)


class SvgToPdf(ImageConverter):
    """Makes a PDF of a picture for LaTeX, which takes no SVG."""

    conversion_rules = [("image/svg+xml", "application/pdf")]

    def is_available(self):
        found = shutil.which("rsvg-convert")
        if not found:
            logger.warning("tikz: LaTeX takes no SVG, and rsvg-convert, which makes a PDF of it, isn't here")
        return bool(found)

    def convert(self, svg, pdf):
        return subprocess.run(["rsvg-convert", "-f", "pdf", "-o", pdf, svg]).returncode == 0


def setup(app):
    app.add_directive("tikz", Tikz)
    app.add_post_transform(SvgToPdf)
    return {"parallel_read_safe": True, "parallel_write_safe": True}

#!/usr/bin/env python3
"""Tries the HTML page in headless Chromium, where it is installed: it loads without an error, has all vertices and
arrows, a click marks the strings and tells the walk, boxes hide arrows and fill subsets, and the search finds."""
import html
import json
import re
import shutil
import subprocess
import sys
import tempfile
import unittest
from pathlib import Path

TOP = Path(__file__).resolve().parents[2]
sys.path.insert(0, str(TOP / "python"))

from tavkrudd import crystal  # noqa: E402

BROWSER = shutil.which("chromium") or shutil.which("chromium-browser") or shutil.which("google-chrome")

# Runs behind the page's own script, and writes what it found into the page.
TRY = """<script>
(function () {
  const found = { errors: window.faults };
  const all = (selector) => document.querySelectorAll(selector);
  found.vertices = all(".vertex").length;
  found.arrows = all(".arrow").length;
  const vertex = document.querySelector('.vertex[data-rank="%(rank)d"]');
  vertex.dispatchEvent(new MouseEvent("click", { bubbles: true }));
  found.marked = [...all(".arrow.marked")].map(a => a.dataset.from + ":" + a.dataset.index + ":" + a.dataset.to).sort();
  found.told = document.getElementById("told").textContent;
  document.getElementById("index1").click();
  found.shown = [...all(".arrow")].filter(a => a.style.display !== "none").length;
  document.getElementById("index1").click();
  document.getElementById("subset0").click();
  found.members = all(".vertex.member").length;
  const search = document.getElementById("search");
  search.value = "%(search)s";
  search.dispatchEvent(new Event("input"));
  found.found = all(".vertex.found").length;
  const before = document.getElementById("view").getAttribute("transform");
  document.getElementById("graph").dispatchEvent(new KeyboardEvent("keydown", { key: "+" }));
  found.zooms = before !== document.getElementById("view").getAttribute("transform");
  const press = (element, key) => element.dispatchEvent(new KeyboardEvent("keydown", { key: key, bubbles: true }));
  const zoomed = document.getElementById("view").getAttribute("transform");
  press(document.getElementById("graph"), "ArrowLeft");
  found.moves = zoomed !== document.getElementById("view").getAttribute("transform");
  press(document.getElementById("graph"), "0");
  found.fits = before === document.getElementById("view").getAttribute("transform");
  press(document.getElementById("graph"), "Escape");
  found.unmarked = all(".arrow.marked").length;
  press(vertex, "Enter");
  found.remarked = all(".arrow.marked").length;
  const pre = document.createElement("pre");
  pre.id = "found";
  pre.textContent = JSON.stringify(found);
  document.body.appendChild(pre);
})();
</script></body>"""
FAULTS = '<head><script>window.faults = []; window.onerror = function (m) { window.faults.push(String(m)); }; console.error = window.onerror;</script>'


def tried(text: str, rank: int, search: str) -> dict:
    """What the browser found in this page."""
    text = text.replace("<head>", FAULTS, 1).replace("</body>", TRY % {"rank": rank, "search": search}, 1)
    with tempfile.TemporaryDirectory() as folder:
        page = Path(folder) / "page.html"
        page.write_text(text, encoding="utf-8")
        words = [BROWSER, "--headless", "--no-sandbox", "--disable-gpu", "--dump-dom", f"--user-data-dir={folder}/profile", page.as_uri()]
        dom = subprocess.run(words, capture_output=True, text=True, timeout=60).stdout
    found = re.search(r'<pre id="found">(.*?)</pre>', dom, re.S)
    assert found, "the page's script did not end"
    return json.loads(html.unescape(found[1]))


@unittest.skipUnless(BROWSER, "Chromium is not installed")
class Page(unittest.TestCase):
    def test_adjoint_of_a2(self):
        text = crystal("A", 2, shape=[2, 1]).page(demazure=[[2, 1]])
        self.assertNotRegex(text, r'(?:src|href)=|https?://(?!www\.w3\.org)')
        found = tried(text, rank=4, search="1 1 1")
        self.assertEqual((found["errors"], found["vertices"], found["arrows"]), ([], 8, 8))
        # Through 3 1 2 goes the one string 3 1 1, 3 1 2, 3 2 2 of the index 1, and none of the index 2.
        self.assertEqual(found["marked"], ["3:1:4", "4:1:6"])
        self.assertIn("walk to the top 2 1 1: e1 e2", found["told"])
        self.assertIn("eps_1 = 1   phi_1 = 1", found["told"])
        self.assertEqual((found["shown"], found["members"], found["found"], found["zooms"]), (4, 5, 2, True))
        self.assertEqual((found["moves"], found["fits"], found["unmarked"], found["remarked"]), (True, True, 0, 2))

    def test_print(self):
        """The page is printed with its graph, on few pages."""
        with tempfile.TemporaryDirectory() as folder:
            page, printed = Path(folder) / "page.html", Path(folder) / "page.pdf"
            page.write_text(crystal("A", 2, shape=[2, 1]).page(), encoding="utf-8")
            words = [BROWSER, "--headless", "--no-sandbox", "--disable-gpu", f"--print-to-pdf={printed}", f"--user-data-dir={folder}/profile", page.as_uri()]
            subprocess.run(words, capture_output=True, timeout=60)
            pages = printed.read_bytes().count(b"/Type /Page\n") + printed.read_bytes().count(b"/Type /Page/") + printed.read_bytes().count(b"/Type /Page ")
        self.assertIn(pages, (1, 2))

    def test_many_vertices(self):
        # 1,911 elements by Weyl's formula: 6.5/2.5 * 3.5/1.5 * 30/4 * 42/6 * 12/2.
        whole = crystal("B", 3, shape=[4, 2])
        arrows = sum(target >= 0 for table in whole.f.values() for target in table)
        found = tried(whole.page(demazure=[[1]]), rank=0, search="1 1")
        self.assertEqual((found["errors"], found["vertices"], found["arrows"]), ([], 1911, arrows))


if __name__ == "__main__":
    unittest.main()

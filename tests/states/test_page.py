"""The page of a statement, in a real browser: chromium without a window. Skipped by name where there is none."""
import re
import shutil
import struct
import subprocess
import unittest
import zlib

import network
from test_statement import Case, after, closed, run

BROWSER = shutil.which("chromium") or shutil.which("chromium-browser") or shutil.which("google-chrome")
WORDS = ["--headless", "--no-sandbox", "--disable-gpu", "--hide-scrollbars", "--window-size=1280,1600", "--force-color-profile=srgb"]


def pixels(png):
    """The rows of a PNG of 8 bits a channel, three or four channels, as bytes; and how many channels."""
    at, data = 8, b""
    width = height = channels = 0
    while at < len(png):
        size, kind = struct.unpack_from(">I4s", png, at)
        body = png[at + 8 : at + 8 + size]
        if kind == b"IHDR":
            width, height, depth, colours = struct.unpack_from(">IIBB", body)
            channels = {2: 3, 6: 4}[colours]
            assert depth == 8
        elif kind == b"IDAT":
            data += body
        at += 12 + size
    raw, line, rows, before = zlib.decompress(data), width * channels, [], bytes(width * channels)
    for y in range(height):
        begin = y * (line + 1)
        before = unfiltered(raw[begin], bytearray(raw[begin + 1 : begin + 1 + line]), before, channels)
        rows.append(before)
    return rows, channels


def unfiltered(kind, row, above, step):
    for k in range(len(row)):
        left, up, corner = (row[k - step] if k >= step else 0), above[k], (above[k - step] if k >= step else 0)
        if kind == 1:
            row[k] = row[k] + left & 255
        elif kind == 2:
            row[k] = row[k] + up & 255
        elif kind == 3:
            row[k] = row[k] + (left + up) // 2 & 255
        elif kind == 4:
            near = min((abs(up - corner), 0, left), (abs(left - corner), 1, up), (abs(left + up - 2 * corner), 2, corner))
            row[k] = row[k] + near[2] & 255
    return bytes(row)


class Page(Case):
    def setUp(self):
        super().setUp()
        first = network.state("minimal", "capella", 9, 10)
        second = after(first, closed(first, "minimal", "capella"), "capella", 2)
        states = [self.put("state0", first), self.put("state1", second)]
        for name, given in ("one.html", states[:1]), ("run.html", states):
            self.assertEqual(run("--preset", "minimal", "--exit", "0", "--out", self.at / name, *given), (0, "", ""))

    def test_it_stands_alone(self):
        """Nothing is fetched, and nothing of a name is taken for markup."""
        for name in "one.html", "run.html":
            text = self.at.read(name).decode()
            self.assertEqual(re.findall(r"(?:src|href|url|import|script)\b\s*[=(:]", text), [])
            self.assertEqual(text.count('<tr><td class="left"><b>'), 10)
        odd = self.put("<b>&amp;.ssz", network.state("minimal", "capella", 9, 1))
        self.assertIn("&lt;b&gt;&amp;amp;.ssz", run("--preset", "minimal", "--format", "page", odd)[1])

    def test_what_it_says(self):
        text = self.at.read("run.html").decode()
        for part in ("Statement of epochs 9 to 11, 2 closes", "No state was given of epoch 10", "Waiting for activation", "Bounds, not forecasts",
                     "its activation epoch is set: active from epoch 14 (2020-12-01", "<td class=\"left\">state1</td>", "An order to leave, given now", "balance, ETH", "given and taken, Gwei", "<th>blocks</th><th>gaps</th>"):  # fmt: skip
            self.assertIn(part, text)

    @unittest.skipUnless(BROWSER, "chromium is missing")
    def test_in_a_browser(self):
        """Drawn, every validator's row is there and within the page's width, and the chart has its two colours."""
        for name, wide in ("one.html", False), ("run.html", True):
            page = (self.at / name).as_uri()
            profile = f"--user-data-dir={self.at / 'profile'}"
            # how far the widest table reaches, asked of the browser itself
            probe = "<script>document.title=[...document.querySelectorAll('.wide')].map(x=>x.scrollWidth-x.clientWidth).join()</script></body>"
            self.at.write("probe.html", self.at.read(name).replace(b"</body>", probe.encode()))
            asked = [BROWSER, *WORDS, profile, "--dump-dom", (self.at / "probe.html").as_uri()]
            dom = subprocess.run(asked, capture_output=True, timeout=120).stdout.decode()
            self.assertEqual(dom.count('<td class="left"><b>'), 10)
            beyond = re.search("<title>([0-9,]+)</title>", dom)[1].split(",")
            self.assertTrue(wide or set(beyond) == {"0"}, beyond)
            subprocess.run([BROWSER, *WORDS, profile, f"--screenshot={self.at / 'page.png'}", page], capture_output=True, timeout=120, check=True)
            rows, channels = pixels(self.at.read("page.png"))
            seen = {row[at : at + 3] for row in rows[::3] for at in range(0, len(row), 3 * channels)}
            for colour in "ffffff", "1c2430", "1a7f4e", "b3362b":  # paper, ink, given, taken
                self.assertIn(bytes.fromhex(colour), seen)


if __name__ == "__main__":
    unittest.main()

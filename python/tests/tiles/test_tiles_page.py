"""What the page shows in a browser is what the program answers to the line that it shows, and it throws nothing."""

import json
import math
from collections.abc import Sequence

from chromium import Chromium
from support import wants
from tiles_support import BOXES, HOSTILE_LAYER, HOSTILE_NAME, Mapped, ids_of, number_of, replies_of


class Page(Mapped):
    browser: Chromium

    @classmethod
    def setUpClass(cls) -> None:
        wants("chromium")
        super().setUpClass()
        cls.browser = Chromium(1000, 600)
        cls.addClassCleanup(cls.browser.close)

    def setUp(self) -> None:
        self.browser.faults.clear()
        self.browser.open(self.server.address)
        self.browser.until("document.getElementById('view-reply')?.textContent")

    def tearDown(self) -> None:
        self.assertEqual(self.browser.faults, [])

    def texts(self, *ids: str) -> list[str]:
        """What elements show, at one moment."""
        found: list[str] = self.browser.value(f"{json.dumps(ids)}.map(id => document.getElementById(id).textContent)")
        return found

    def text(self, id: str) -> str:
        return self.texts(id)[0]

    def choose(self, tool: str) -> None:
        self.browser.value(f"document.querySelector('input[value={tool}]').click()")

    def await_change(self, id: str, before: str) -> None:
        self.browser.until(f"document.getElementById('{id}').textContent !== {json.dumps(before)}")

    def window_seen(self) -> list[int]:
        """The sides of the view, by its line."""
        return [*map(int, self.text("view-line").split()[2:6])]

    def place_of(self, across: int, down: int) -> tuple[float, float]:
        """The place on the map of a pixel, by the line of the view."""
        x1, x2, y1, y2 = self.window_seen()
        wide, high = self.browser.value("[canvas.clientWidth, canvas.clientHeight]")
        return x1 + (x2 - x1) * across / wide, y2 - (y2 - y1) * down / high

    def pixel_of(self, x: float, y: float) -> tuple[int, int]:
        """The pixel of a place on the map."""
        x1, x2, y1, y2 = self.window_seen()
        wide, high = self.browser.value("[canvas.clientWidth, canvas.clientHeight]")
        return round((x - x1) / (x2 - x1) * wide), round((y2 - y) / (y2 - y1) * high)

    def assert_places(self, numbers: Sequence[str | float], *pixels: tuple[int, int]) -> None:
        """Coordinates are the places of these pixels, but for rounding."""
        expected = [number for pixel in pixels for number in self.place_of(*pixel)]
        self.assertEqual(len(numbers), len(expected))
        for number, place in zip(numbers, expected):
            self.assertAlmostEqual(float(number), place, delta=3)

    def assert_answer(self, begins: str, ends: str = " first 1000") -> list[str]:
        """The answer that is shown is the program's, and isn't empty. Gives the words of its line."""
        line: str = self.browser.until("document.getElementById('line').value")
        self.browser.until(f"document.getElementById('line-reply').dataset.line === {json.dumps(line)}")
        self.assertTrue(line.startswith(begins), line)
        cells = "[...row.cells].slice(0, 2).map(cell => cell.textContent).join(' ')"
        rows = self.browser.value(f"[...document.querySelectorAll('#answers tr')].map(row => {cells})")
        counting = line.replace("find", "count", 1).replace(ends, "")
        answers, cost, count = replies_of(self.table, [line, f"cost {line}", counting])
        self.assertEqual(rows, answers[:-1], line)
        self.assertGreater(len(rows), 0, line)
        nodes, all_boxes = (reply[-1].split()[2] for reply in (cost, count))
        self.assertEqual(self.text("line-reply"), f"{len(rows)} of {all_boxes} boxes; the query opens {nodes} nodes")
        return line.split()

    def assert_view(self) -> int:
        """The number of boxes in view that is shown is the program's."""
        line, text = self.texts("view-line", "view-reply")
        count = number_of(self.table, line)
        self.assertIn(text, (f"{count} boxes", f"{count} boxes, shown as counts"))
        return count

    def test_a_window(self) -> None:
        self.choose("window")
        self.browser.drag((420, 150), (200, 360))
        _, _, x1, x2, y1, y2, *_ = self.assert_answer("find window ")
        self.assert_places([x1, y1, x2, y2], (200, 360), (420, 150))

    def test_a_circle(self) -> None:
        self.choose("circle")
        self.browser.drag((330, 300), (400, 360))
        _, _, x, y, radius, *_ = self.assert_answer("find circle ")
        self.assert_places([x, y], (330, 300))
        end = self.place_of(400, 360)
        self.assertAlmostEqual(int(radius), math.dist((int(x), int(y)), end), delta=3)

    def test_a_click(self) -> None:
        """Asks for the boxes at that point, the smallest first, and for the nearest to it."""
        x1, x2, y1, y2 = self.json("/ask?q=find+all+on+0+first+1")["answers"][0]["box"]
        pixel = self.pixel_of((x1 + x2) / 2, (y1 + y2) / 2)
        self.browser.click(*pixel)
        _, _, x, same_x, y, same_y, *_ = self.assert_answer("find covers ", " smallest first 1000")
        self.assertEqual((x, y), (same_x, same_y))
        self.assert_places([x, y], pixel)
        self.browser.until("document.getElementById('near-reply').textContent")
        self.assert_nearest(*pixel)
        line = self.browser.value("document.getElementById('line').value")
        self.browser.drag((300, 300), (350, 300))  # which is none
        self.assertEqual(self.browser.value("document.getElementById('line').value"), line)

    def test_an_answer_out_of_view(self) -> None:
        """The map moves to it; so it does for a row of the answers that is clicked."""
        self.browser.drag((300, 300), (900, 300))
        for _ in range(4):
            self.browser.wheel(300, 300, -1000)
        found = self.json("/ask?q=nearest+2+9000000+9000000")["answers"]
        self.assert_out_of_view(found[0]["box"])
        self.typed("nearest 2 9000000 9000000")
        self.assert_in_view(found[0]["box"])
        self.browser.value("place.x -= 1e7; place.scale /= 8; look()")
        self.assert_out_of_view(found[1]["box"])
        self.browser.value("document.querySelectorAll('#answers tr')[1].click()")
        self.assert_in_view(found[1]["box"])

    def assert_in_view(self, box: list[int]) -> None:
        self.browser.until(f"isInView({box}) && shown.view")
        self.assertTrue(self.browser.value(f"acrossOf({box[0]}) >= 0 && acrossOf({box[1]}) <= canvas.width"))

    def assert_out_of_view(self, box: list[int]) -> None:
        self.assertFalse(self.browser.value(f"isInView({box})"))

    def test_a_narrow_window(self) -> None:
        """The map has the greater part of it, and nothing is wider than it."""
        self.browser.resize(420, 800)
        self.addCleanup(self.browser.resize, 1000, 600)
        self.browser.until("canvas.width === 420")
        wide, high = self.browser.value("[canvas.clientWidth, canvas.clientHeight]")
        self.assertEqual((wide, self.browser.value("document.documentElement.scrollWidth")), (420, 420))
        self.assertGreater(high, 450)
        self.choose("window")
        self.browser.drag((100, 100), (300, 400))
        self.assert_answer("find window ")
        self.assertEqual(self.browser.value("[canvas.width, canvas.height]"), [wide, high])

    def test_two_fingers(self) -> None:
        """What is under a finger stays under it: the map zooms and moves, draws nothing, and asks nothing."""
        for tool in ("pan", "window"):
            self.choose(tool)
            before, scale = self.text("view-line"), self.browser.value("place.scale")
            middle = "[place.x + (300 - canvas.width / 2) * place.scale, place.y - (300 - canvas.height / 2) * place.scale]"
            under = self.browser.value(middle)
            self.browser.touch("touchStart", (250, 250))
            self.browser.touch("touchStart", (250, 250), (350, 350))
            self.browser.touch("touchMove", (200, 200), (350, 350))
            self.browser.touch("touchMove", (200, 200), (400, 400))
            self.browser.touch("touchEnd", (200, 200))
            self.browser.touch("touchMove", (100, 100))
            self.browser.touch("touchEnd")
            self.await_change("view-line", before)
            self.assertAlmostEqual(self.browser.value("place.scale"), scale / 2, delta=scale / 100)
            for found, place in zip(self.browser.value(middle), under):
                self.assertAlmostEqual(found, place, delta=scale)
            self.assertEqual(self.browser.value("[shown.shape, document.getElementById('line').value, pinch, drag, fingers.size]"), [None, "", None, None, 0])
            self.assert_view()

    def test_buttons(self) -> None:
        scale, middle = self.browser.value("place.scale"), self.browser.value("[place.x, place.y]")
        for name, times in (("nearer", 1 / 2), ("farther", 1)):
            before = self.text("view-line")
            self.browser.value(f"document.getElementById('{name}').click()")
            self.await_change("view-line", before)
            self.assertAlmostEqual(self.browser.value("place.scale"), scale * times)
        self.assertEqual(self.browser.value("[place.x, place.y]"), middle)

    def test_a_polygon(self) -> None:
        self.choose("polygon")
        corners = [(200, 200), (450, 180), (500, 400), (250, 450)]
        for corner in corners[:3]:
            self.browser.click(*corner)
        self.assert_places(self.assert_answer("find polygon 3 ")[3:-2], *corners[:3])
        self.browser.click(*corners[3])
        self.browser.until("document.getElementById('line-reply').dataset.line.startsWith('find polygon 4 ')")
        self.assert_places(self.assert_answer("find polygon 4 ")[3:-2], *corners)

    def test_a_polygon_that_is_not_convex(self) -> None:
        self.choose("polygon")
        for corner in (200, 200), (450, 200), (300, 250), (300, 500):
            self.browser.click(*corner)
        self.browser.until("(document.getElementById('line-reply').dataset.line ?? '').startsWith('find polygon 4 ')")
        line = self.browser.value("document.getElementById('line').value")
        self.assertEqual(replies_of(self.table, [line]), [[f"error 1 {self.text('line-reply')}"]])

    def test_layers(self) -> None:
        for layer in (0, 4, 5):
            self.browser.value(f"document.querySelector('#layers input[value=\"{layer}\"]').click()")
        self.browser.until("document.getElementById('view-line').textContent.endsWith(' on 1,2,3')")
        self.assertLess(self.assert_view(), BOXES)
        self.choose("window")
        self.browser.drag((200, 150), (420, 360))
        self.assertIn(" on 1,2,3 first 1000", self.browser.until("document.getElementById('line').value"))
        self.assert_answer("find window ")
        self.browser.mouse("mouseMoved", 333, 222)
        self.browser.until("document.getElementById('near-line').textContent.startsWith('find all on 1,2,3 near ')")
        self.assert_nearest(333, 222)
        for layer in (1, 2, 3):
            self.browser.value(f"document.querySelector('#layers input[value=\"{layer}\"]').click()")
        self.browser.until("document.getElementById('view-reply').textContent === 'no layer is chosen'")

    def assert_nearest(self, across: int, down: int) -> None:
        """The nearest box to a pixel that is shown is the program's."""
        line, text = self.texts("near-line", "near-reply")
        words = line.removesuffix(" first 1").split()
        self.assert_places(words[-2:], (across, down))
        answers, cost = replies_of(self.table, [line, f"cost {line}"])
        self.assertTrue(text.startswith(answers[0]), text)
        self.assertTrue(text.endswith(f"; the query opens {cost[0].split()[2]} nodes"), text)

    def test_the_nearest_to_the_pointer_while_it_moves(self) -> None:
        seen = set()
        for x, y in (100, 100), (300, 250), (301, 300), (600, 500):
            before = self.text("near-line")
            self.browser.mouse("mouseMoved", x, y)
            self.await_change("near-line", before)
            self.assert_nearest(x, y)
            seen.add(self.text("near-reply"))
        self.assertEqual(len(seen), 4)

    def test_moving_and_zooming_until_boxes_show(self) -> None:
        self.assertEqual(self.assert_view(), BOXES)
        self.assertIn("shown as counts", self.text("view-reply"))
        before, middle = self.text("view-line"), self.place_of(350, 300)
        self.browser.drag((350, 300), (250, 260))
        self.await_change("view-line", before)
        self.assert_view()
        self.assert_places(middle, (250, 260))
        town = self.json("/ask?q=find+all+on+0+first+1")["answers"][0]["box"]
        across, down = self.pixel_of((town[0] + town[1]) / 2, (town[2] + town[3]) / 2)
        for _ in range(30):
            if "counts" not in self.text("view-reply"):
                break
            before, under = self.text("view-line"), self.place_of(across, down)
            self.browser.wheel(across, down, -300)
            self.await_change("view-line", before)
            self.assert_places(under, (across, down))
        self.assertGreater(self.assert_view(), 0)
        ids = "shown.view.boxes.map(box => box.id)"
        line, shown = self.browser.value(f"[document.getElementById('view-line').textContent, {ids}]")
        self.assertEqual([*map(int, shown)], ids_of(self.table, line.replace("count", "find")))
        self.assert_painted()

    def assert_painted(self) -> None:
        """Each box in view whose middle is on the canvas has colour there, and the canvas has more colours than one."""
        painted, colours = self.browser.value("""
            (() => {
              const wide = canvas.width, high = canvas.height;
              const pixels = new Uint32Array(pen.getImageData(0, 0, wide, high).data.buffer);
              const middle = ({box: [x1, x2, y1, y2]}) => [acrossOf((x1 + x2) / 2), downOf((y1 + y2) / 2)];
              const seen = shown.view.boxes.map(middle).filter(([x, y]) => x >= 0 && x < wide && y >= 0 && y < high);
              const colours = seen.map(([x, y]) => pixels[Math.floor(y) * wide + Math.floor(x)]);
              return [colours.map(colour => colour !== 0), new Set(pixels).size];
            })()
        """)
        self.assertEqual(set(painted), {True})
        self.assertGreater(colours, 2)

    def typed(self, line: str) -> str:
        """What the page tells of a line that is typed."""
        self.browser.value("document.getElementById('line').value = ''; document.getElementById('line').focus()")
        self.browser.type(line)
        self.browser.until(f"document.getElementById('line-reply').dataset.line === {json.dumps(line)}")
        return self.text("line-reply")

    def test_lines_that_are_typed(self) -> None:
        polygon = "count polygon 3 0 0 9000000 0 0 9000000 on 4"
        for line in ("count all", "nearest 3 0 0", "cost find all first 1000", polygon, "levels"):
            reply, cost = replies_of(self.table, [line, f"cost {line}"])
            nodes = f"; the query opens {cost[0].split()[2]} nodes" if cost[0].startswith("ok") else ""
            self.assertEqual(self.typed(line), f"ok, {reply[-1].split()[2]}{nodes}")
        for line in ("find window 1 first 1", "<b>x</b>", "find all on 64 first 1", "find circle 0 0 -1 first 1",
                     "find all first 99999999999999999999"):
            self.assertEqual(replies_of(self.table, [line]), [[f"error 1 {self.typed(line)}"]])
        for line in ("find all", "find all first 1001", "nearest 1001 0 0",
                     "cost find all", " cost\tfind all near 0 0 first 1001", "cost nearest 1001 0 0"):
            self.assertIn("at most 1000", self.typed(line))

    def test_what_looks_like_markup_is_text(self) -> None:
        self.typed(f"find all on 0 first 1 {HOSTILE_NAME}")
        self.typed("find all on 0 first 1")
        name = self.browser.value("document.querySelector('#answers tr').cells[2].textContent")
        layer = self.browser.value("document.querySelector('#layers label:last-child').textContent")
        self.assertEqual((name, layer), (HOSTILE_NAME, HOSTILE_LAYER))
        self.assertEqual(self.browser.value("document.querySelectorAll('img, b, script:not([src])').length"), 0)

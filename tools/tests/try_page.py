"""Tries pages of page.py in a headless Chromium, and leaves pictures of them in a folder, to look
at; try_page.sh finds a Chromium and calls it.

What is expected of the page of the backbone stands in demo/backbone_audit.txt.

usage: try_page.py CHROMIUM FOLDER
"""
import os
import sys
import unittest

sys.path.insert(0, os.path.join(os.path.dirname(os.path.abspath(__file__)), ".."))
import networks
import page
from tests import made_network
from tests.browser import Browser
from tests.runs import DEMO, link_line

SIZES = {"wide": (1280, 720), "middle": (768, 1024), "narrow": (390, 844)}
OUT = link_line(5, "den", "kcy", 10000, 7, 1000, out=True, at=2) + "\n"
MOST_MILLISECONDS = 3000
TAB, ENTER, ESCAPE = ("Tab", 9), ("Enter", 13, "\r"), ("Escape", 27)
SHOWN_LINKS = "[...document.querySelectorAll('.link.on')].map(link => +link.dataset.link)"
TITLE = "document.querySelector('#title').firstChild?.textContent"


def rows(table, column):
    """An expression for the words in a column of a table, which is named by its title."""
    return (f"[...document.querySelectorAll('[aria-label={table}] tbody tr')]"
            f".map(row => row.children[{column}].textContent)")


# Three nodes at one place, two of them joined by two links, and one elsewhere.
ONE_PLACE = """node a
node b
node c
node d
# at a 8.5 47.4
# at b 8.5 47.4
# at c 8.5 47.4
# at d 6.1 46.2
link a b 10 1
link b a 10 1
link b c 10 1
link c d 10 200
end
"""


# A ring of a, b and c, and d at its end; VPN 4 is on the tree of the links 0, 1 and 3.
TAIL = """node a
node b
node c
node d
# at a 0 1
# at b 1 2
# at c 1 0
# at d 3 1
link a b 10 1
link b c 10 1
link a c 10 1
link c d 10 1
end
"""
TAIL_AUDIT = f"""epoch 4
{link_line(0, "a", "b", 10, 1, 1)}
{link_line(1, "b", "c", 10, 1, 3)}
{link_line(2, "a", "c", 10, 1, 0)}
{link_line(3, "c", "d", 10, 1, 4)}
vpn 4 acme cost 8 ends a:1 b:2 d:9 links 0:1 1:3 3:4
live 1 cost 8
"""
WITHOUT = ("[...document.querySelectorAll('#chosen section:last-child tbody tr')]"
           ".map(row => row.lastChild.textContent)")
CUTS = "[...document.querySelectorAll('.cuts')].map(link => +link.dataset.link)"
PART = "view.part.width / view.whole.width"


class Tries(unittest.TestCase):
    @classmethod
    def setUpClass(cls):
        cls.browser = Browser(cls.chromium)
        topology = networks.load(networks.read_topology, f"{DEMO}/backbone.txt")
        audit = networks.load(networks.read_audit, f"{DEMO}/backbone_audit.txt")
        cls.backbone = cls.write("backbone", topology, audit)
        cls.network_alone = cls.write("alone", topology)
        cls.with_out = cls.write("out", topology, audit, page.out_of(topology, OUT))
        cls.one_place = cls.write("one_place", networks.read_topology(ONE_PLACE))
        cls.middle = cls.write_made("middle", 200, 400, 3000)
        cls.large = cls.write_made("large", 512, 2048, 20000)
        tail, tail_audit = networks.read_topology(TAIL), networks.read_audit(TAIL_AUDIT)
        cls.tail = cls.write("tail", tail, tail_audit)
        cls.tail_out = cls.write("tail_out", tail, tail_audit, frozenset([0]))

    @classmethod
    def write_made(cls, name, *sizes):
        topology, audit = made_network.made(*sizes)
        return cls.write(name, networks.read_topology(topology), networks.read_audit(audit))

    @classmethod
    def tearDownClass(cls):
        cls.browser.__exit__()

    @classmethod
    def write(cls, name, *parts):
        path = os.path.abspath(f"{cls.folder}/{name}.html")
        with open(path, "w", encoding="ascii") as file:
            file.write(page.page(f"{name}.txt", *parts))
        return f"file://{path}"

    def setUp(self):
        self.browser.size(*SIZES["wide"])
        self.browser.messages.clear()

    def tearDown(self):
        self.assertEqual(self.browser.messages, [])

    def value(self, script):
        return self.browser.value(script)

    def test_pictures_at_three_sizes(self):
        for size, (width, height) in SIZES.items():
            self.browser.size(width, height)
            for name, address in (("backbone", self.backbone), ("vpn", self.backbone + "#vpn=1"),
                                  ("out", self.with_out + "#link=5"), ("middle", self.middle),
                                  ("tail_vpn", self.tail + "#vpn=4"), ("large", self.large),
                                  ("large_vpn", self.large + "#vpn=17")):
                self.browser.open(address)
                self.browser.screenshot(f"{self.folder}/{name}_{size}.png")
                self.assertEqual(self.value("document.documentElement.scrollWidth"), width, name)

    def test_pictures_in_grey(self):
        self.browser.see("achromatopsia")
        for name, address in (("vpn", self.backbone + "#vpn=1"), ("large", self.large)):
            self.browser.open(address)
            self.browser.screenshot(f"{self.folder}/{name}_grey.png")
        self.browser.see("none")

    def test_a_vpn_by_the_end_of_the_address(self):
        self.browser.open(self.backbone + "#vpn=1")
        self.assertEqual(self.value(TITLE), "VPN 1 of acme, cost 38200")
        self.assertEqual(self.value(SHOWN_LINKS), [1, 2, 3, 5, 7, 9, 11])
        self.assertEqual(self.value("document.querySelectorAll('#over rect').length"), 4)
        cells = self.value("[...document.querySelectorAll('#chosen td')].map(cell => "
                           "cell.textContent)")
        self.assertEqual(cells[:8], ["sea", "400", "lax", "600", "chi", "500", "nyc", "1000"])
        self.assertEqual(cells[8:13], ["1", "sea \u2013 den", "400", "400", "10000"])

    def test_a_vpn_that_is_not_there(self):
        self.browser.open(self.backbone + "#vpn=99")
        self.assertEqual(self.value(TITLE), "There is no VPN 99")
        self.assertEqual(self.value(SHOWN_LINKS), [])

    def test_by_the_pointer(self):
        self.browser.open(self.backbone)
        self.browser.click("document.querySelector('a[href=\"#vpn=2\"]')")
        self.assertEqual(self.value(SHOWN_LINKS), [8, 12])
        self.browser.click("document.querySelector('#title button')")
        self.assertEqual(self.value(SHOWN_LINKS), [])
        self.browser.point("groups[5]")
        self.assertEqual(self.value("find('#pointed').textContent"),
                         "link 5, den \u2013 kcy\nload 1000 of 10000 (10 %), cost 7, length 7")
        self.browser.click("groups[5]")
        self.assertEqual(self.value(TITLE), "Link 5, den \u2013 kcy")
        self.assertEqual(self.value("[...document.querySelectorAll('#chosen td')].map(cell => "
                                    "cell.textContent)"), ["1", "acme", "1000"])

    def test_links_between_nodes_at_one_place(self):
        """Each can be pointed at and chosen, on a wide screen and a narrow one."""
        for size in SIZES.values():
            self.browser.size(*size)
            self.browser.open(self.one_place)
            for link, between in ((0, "a \u2013 b"), (1, "b \u2013 a"), (2, "b \u2013 c")):
                middle = (f"picture.appendChild(drawn('circle', {{cx: links[{link}].x, "
                          f"cy: links[{link}].y, r: 1}}))")
                self.browser.point(middle)
                told = self.value("find('#pointed').textContent")
                self.assertEqual(told.split("\n")[0], f"link {link}, {between}")
                self.browser.click(middle)
                self.assertEqual(self.value(TITLE), f"Link {link}, {between}")

    def test_the_links_that_cut_a_vpn_off(self):
        """The ring has a way round each of its links; with link 0 out, none round the others."""
        for address, without, cuts, of_link in (
                (self.tail, ["a way round", "a way round", "cuts off d"], [3], "A way leads round"),
                (self.tail_out, ["a way round", "cuts off d", "cuts off d"], [1, 3],
                 "No way leads round")):
            self.browser.open(address + "#vpn=4")
            self.assertEqual(self.value(WITHOUT), without)
            self.assertEqual(sorted(self.value(CUTS)), cuts)
            self.browser.open(address + "#link=1")
            self.assertIn(of_link, self.value("find('#chosen p').textContent"))
            self.assertEqual(self.value(CUTS), [])

    def test_zoom_and_drag(self):
        self.browser.open(self.large)
        self.assertEqual(self.value(PART), 1)
        self.assertEqual(self.value("getComputedStyle(names[0]).display"), "none")
        at = self.browser.point("circles[17]")
        self.browser.wheel(-1200, **at)
        self.assertLess(self.value(PART), 0.25)
        after = self.value("(box => ({x: box.x + box.width / 2, y: box.y + box.height / 2}))"
                           "(circles[17].getBoundingClientRect())")
        for axis in "xy":  # the node stays under the pointer, which stands at a whole pixel
            self.assertAlmostEqual(after[axis], at[axis], delta=6)
        self.assertNotEqual(self.value("getComputedStyle(names[0]).display"), "none")
        self.browser.drag(60, 40, **at)
        moved = self.value("(box => ({x: box.x + box.width / 2, y: box.y + box.height / 2}))"
                           "(circles[17].getBoundingClientRect())")
        self.assertAlmostEqual(moved["x"] - after["x"], 60, delta=2)
        self.assertAlmostEqual(moved["y"] - after["y"], 40, delta=2)
        self.assertEqual(self.value("location.hash"), "")  # a drag chooses nothing
        self.browser.screenshot(f"{self.folder}/large_zoomed.png")
        self.browser.press("0", 48, "0")
        self.browser.settled()
        self.assertEqual(self.value(PART), 1)
        self.browser.press("+", 187, "+")
        self.browser.settled()
        self.assertLess(self.value(PART), 0.7)

    def test_a_page_that_is_loaded_again(self):
        self.browser.open(self.middle)
        self.value("(choice => { choice.value = '30'; choice.onchange(); })(find('select'))")
        self.value("view.zoom(4, {x: 500, y: 300})")
        part = self.value("[view.part.x, view.part.y, view.part.width]")
        self.browser.reload()
        self.assertEqual(self.value("[view.part.x, view.part.y, view.part.width]"), part)
        self.assertEqual(self.value("document.querySelectorAll('.link:not(.idle)').length"), 30)
        self.browser.open(self.middle)
        self.assertEqual(self.value(PART), 1)

    def test_two_fingers(self):
        self.browser.size(*SIZES["narrow"])
        self.browser.open(self.middle)
        at = self.browser.point("circles[17]")
        self.browser.pinch(40, 120, **at)
        self.assertAlmostEqual(self.value(PART), 1 / 3, delta=0.02)
        self.assertEqual(self.value("location.hash"), "")
        self.browser.pinch(120, 40, **at)
        self.assertAlmostEqual(self.value(PART), 1, delta=0.02)

    def test_zoom_to_a_vpn(self):
        """All endpoints are seen, and what is chosen stays."""
        number = self.value_of_small_vpn()
        self.browser.click("document.querySelectorAll('#title button')[1]")
        self.assertLess(self.value(PART), 1)
        self.assertTrue(self.value(
            f"endsOf(vpnOf.get({number})).every(([node]) => node.x >= view.part.x && node.y >= "
            "view.part.y && node.x <= view.part.x + view.part.width && "
            "node.y <= view.part.y + view.part.height)"))
        self.browser.screenshot(f"{self.folder}/large_vpn_zoomed.png")

    def value_of_small_vpn(self):
        """Opens the page at the VPN of fewest links, and gives its number."""
        self.browser.open(self.large)
        number = self.value("vpns.reduce((one, other) => "
                            "count(other.amounts) < count(one.amounts) ? other : one).id")
        self.browser.open(f"{self.large}#vpn={number}")
        return number

    def test_the_busiest_links_alone(self):
        self.browser.open(self.middle)
        self.value("(choice => { choice.value = '30'; choice.onchange(); })(find('select'))")
        self.browser.settled()
        shown = "[...document.querySelectorAll('.link:not(.idle)')].map(one => +one.dataset.link)"
        least = self.value(f"Math.min(...{shown}.map(number => links[number].use))")
        self.assertEqual(self.value(f"{shown}.length"), 30)
        self.assertEqual(self.value(f"links.filter(link => link.use > {least}).length <= 30"), True)
        self.browser.screenshot(f"{self.folder}/middle_busiest.png")
        # The busiest are drawn over the others.
        self.assertTrue(self.value("drawnOrder.map(group => links[group.dataset.link].use)"
                                   ".every((use, at, uses) => !at || uses[at - 1] <= use)"))

    def test_by_the_keyboard_alone(self):
        self.browser.open(self.backbone)
        for _ in range(4):  # the buttons below the picture, and which links
            self.browser.press(*TAB)
        self.assertEqual(self.value("document.activeElement.tagName"), "SELECT")
        self.browser.press(*TAB)
        self.assertEqual(self.value("document.activeElement.tagName"), "INPUT")
        self.browser.type("bet")
        self.assertEqual(self.value(rows("VPNs", 1)), ["beta"])
        for _ in range(6):  # past the heads of five columns
            self.browser.press(*TAB)
        self.browser.press(*ENTER)
        self.browser.settled()
        self.assertEqual(self.value(TITLE), "VPN 2 of beta, cost 3200")
        self.assertEqual(self.value("document.activeElement.textContent"), "2")
        self.browser.press(*ESCAPE)
        self.browser.settled()
        self.assertEqual(self.value(TITLE), None)

    def test_tables_sort(self):
        self.browser.open(self.backbone)
        self.assertEqual(self.value(rows("Links", 0))[:9],
                         ["5", "7", "9", "11", "2", "3", "1", "8", "12"])
        use = "document.querySelector('[aria-label=Links] [aria-sort] button')"
        self.browser.click(use)
        self.assertEqual(self.value(rows("Links", 0))[:6], ["0", "4", "6", "10", "13", "8"])
        self.browser.click("vpnTable.heads.children[2].firstChild")
        self.assertEqual(self.value(rows("VPNs", 2)), ["3200", "38200"])

    def test_what_is_out_is_dashed(self):
        self.browser.open(self.with_out)
        self.assertEqual(self.value("[...document.querySelectorAll('.link')].filter(link => "
                                    "getComputedStyle(link.firstChild).strokeDasharray !== 'none')"
                                    ".map(link => +link.dataset.link)"), [5])

    def test_a_network_without_an_audit(self):
        self.browser.open(self.network_alone)
        self.assertEqual(self.value(rows("Links", 1))[:2], ["sea \u2013 svl", "sea \u2013 den"])
        self.assertEqual(self.value("document.querySelectorAll('.core').length"), 0)
        self.assertEqual(self.value("document.querySelector('[aria-label=VPNs]')"), None)

    def test_a_large_page_opens_in_time(self):
        for end in ("", "#vpn=20000", "#link=5"):
            milliseconds = min(self.browser.open(self.large + end) for _ in range(3))
            print(f"512 nodes, 2048 links and 20000 VPNs {end}: {milliseconds:.0f} ms")
            self.assertLess(milliseconds, MOST_MILLISECONDS)

    def test_the_tables_turn_to_what_is_chosen(self):
        self.browser.open(self.large + "#vpn=20000")
        current = "document.querySelector('[aria-label=VPNs] [aria-current]')"
        self.assertEqual(self.value(f"{current}.firstChild.textContent"), "20000")
        self.browser.click("vpnTable.back")
        self.assertEqual(self.value(rows("VPNs", 0))[0], "19951")


if __name__ == "__main__":
    if sys.argv[1:] == ["--help"]:
        print(__doc__, end="")
        sys.exit()
    if len(sys.argv) != 3:
        sys.exit(f"try_page.py: CHROMIUM and FOLDER are wanted; {__doc__.splitlines()[-1]}")
    Tries.chromium, Tries.folder = sys.argv[1:]
    unittest.main(argv=sys.argv[:1])

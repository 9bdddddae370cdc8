"""The graph of regions: which must outlive which, circles in one box, and where that arises."""

import re
import unittest

from page_support import SAMPLES, facts_of, file_bytes, random_text, solved

from nllc_tools.views.html.graph import region_graph


def groups(facts):
    return sorted(map(tuple, region_graph.groups_of(region_graph.pairs_of(facts))))


def slow_groups(facts):
    """The same by reaching from each region to each other."""
    pairs = {(c.sup, c.sub) for c in facts.constraints if c.sup != c.sub}
    reach = {pair for pair in pairs}
    for middle in range(len(facts.names)):
        reach |= {(a, d) for a, b in reach if b == middle for c, d in reach if c == middle}
    there = {region for pair in pairs for region in pair}
    return sorted({tuple(sorted({a} | {b for b in there if (a, b) in reach and (b, a) in reach}))
                   for a in there})


class RegionGraph(unittest.TestCase):
    def test_circles_are_boxes(self):
        facts = facts_of(1, "region 'a", "region 'b", "region 'c", "region 'd", "constraint 'a 'b 0",
                         "constraint 'b 'a 0", "constraint 'b 'c 0")
        self.assertEqual(groups(facts), [(1, 2), (3,)])

    def test_circles_of_random_texts(self):
        for seed in range(150):
            facts, _ = solved(random_text(seed))
            self.assertEqual(groups(facts), slow_groups(facts), seed)

    def test_where_it_arises(self):
        facts, _ = solved(file_bytes(SAMPLES, "pick.facts"))
        made = region_graph.region_graph(facts)
        self.assertEqual(re.findall(r'text-anchor="middle">([^<]*)<', made), ["line 7"])
        self.assertIn("<title>&#x27;b must outlive &#x27;best: line 7</title>", made)
        self.assertEqual(re.findall(r'class="asked"[^>]*>([^<]*)<', made),
                         ["&#x27;a: &#x27;best  line 5", "&#x27;best: &#x27;a  line 9"])

    def test_each_constraint_has_its_place(self):
        """The words in full name each point or line, also where the short ones don't."""
        facts = facts_of(9, "region 'a", "region 'b", *(f"next {p} {p + 1}" for p in range(8)),
                         *(f"constraint 'a 'b {p}" for p in range(1, 6)))
        words = region_graph.place_words(facts, 1, 2, [1, 2, 3, 4, 5])
        self.assertEqual(words.short, "point 1, point 2, point 3 +2")
        self.assertEqual(words.full, "point 1, point 2, point 3, point 4, point 5")
        self.assertIn(f"must outlive &#x27;b: {words.full}", region_graph.region_graph(facts))
        self.assertEqual(region_graph.place_words(facts, 1, 2, list(range(9))).short, "everywhere")

    def test_no_picture(self):
        self.assertIn("No region must outlive", region_graph.region_graph(facts_of(1, "region 'a", "constraint 'a 'a 0")))
        count = region_graph.MOST_BOXES + 1
        many = facts_of(1, *(f"region 'r{n}" for n in range(count)),
                        *(f"constraint 'r{n} 'static 0" for n in range(count)))
        self.assertIn("too many for a picture", region_graph.region_graph(many))

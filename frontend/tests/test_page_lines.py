"""Folding straight lines of points, and where boxes stand."""

import random
import unittest

from page_support import SAMPLES, facts_of, file_bytes, random_text

from nllc_tools.texts.facts.reader import read_facts
from nllc_tools.views.html.graph import drawing, layout, order
from nllc_tools.views.html.graph.lines import rows, straight_lines, title


class Folding(unittest.TestCase):
    def test_lines(self):
        for said, points, edges, lines in (
                ("one line", 4, [(0, 1), (1, 2), (2, 3)], [[0, 1, 2, 3]]),
                ("points without edges", 3, [], [[0], [1], [2]]),
                ("a branch and a join", 6, [(0, 1), (1, 2), (1, 3), (2, 4), (3, 4), (4, 5)], [[0, 1], [2], [3], [4, 5]]),
                ("a loop begins a line", 4, [(0, 1), (1, 2), (2, 1), (2, 3)], [[0], [1, 2], [3]]),
                ("a loop to the first point", 3, [(0, 1), (1, 2), (2, 0)], [[0, 1, 2]]),
                ("circles without a way in", 5, [(1, 2), (2, 1), (3, 3)], [[0], [1, 2], [3], [4]]),
                ("lines that run backwards", 4, [(0, 3), (3, 2), (2, 1)], [[0, 3, 2, 1]])):
            with self.subTest(said=said):
                facts = facts_of(points, *(f"next {a} {b}" for a, b in edges))
                self.assertEqual(straight_lines(facts.successors), lines)

    def test_by_the_definition(self):
        """Neighbours in a line are each other's only ones, and others aren't."""
        for seed in range(300):
            facts = read_facts(random_text(seed), "TEXT")
            lines = straight_lines(facts.successors)
            self.assertEqual(sorted(p for line in lines for p in line), list(range(facts.points)))
            inside = {(a, b) for line in lines for a, b in zip(line, line[1:])}
            for p in range(facts.points):
                for q in facts.successors[p]:
                    only = facts.successors[p] == [q] and facts.predecessors[q] == [p]
                    if (p, q) in inside:
                        self.assertTrue(only and q != 0)
                    elif only and q != 0:  # left out once on each circle without a way in
                        self.assertTrue(any(line[-1] == p and line[0] == q for line in lines))

    def test_rows_and_titles(self):
        facts = facts_of(4, "# point 0: line 1: a (bb0[0], start)",
                         "# point 1: line 1: a (bb0[0], mid)",
                         "# point 2: b (bb0[1])", "next 0 1", "next 1 2", "next 2 3", "return 3")
        self.assertEqual(rows(facts, [0, 1, 2, 3]), [([0, 1], "a"), ([2], "b"), ([3], "return")])
        self.assertEqual(title(facts, [0, 1, 2, 3]), ("bb0", "0–3"))
        self.assertEqual(title(facts, [3]), ("", "3"))
        self.assertEqual(title(facts, [3, 2]), ("bb0", "3 … 2"))
        facts.point_names.update({point: f"bb0/{point}" for point in range(4)})
        self.assertEqual(title(facts, [0, 1, 2]), ("bb0", ""))
        self.assertEqual(title(facts, [3]), ("", "bb0/3"))

    def test_titles_of_several_blocks(self):
        facts = facts_of(5, *(f"# point {n}: a (bb{n}[0])" for n in range(5)))
        self.assertEqual(title(facts, [0, 1, 2]), ("bb0, bb1, bb2", "0–2"))
        self.assertEqual(title(facts, [0, 1, 3, 4]), ("bb0 … bb4", "0 … 4"))

    def test_marks_share_a_row(self):
        facts = facts_of(5, "# point 0: line 1: StorageLive(_1) (bb0[0])",
                         "# point 1: line 1: StorageDead(_2) (bb0[1])",
                         "# point 2: line 1: _1 = _2 (bb0[2])",
                         "# point 3: line 1: StorageLive(_3) (bb0[3])",
                         "# point 4: line 2: StorageLive(_4) (bb0[4])")
        self.assertEqual([row.points for row in rows(facts, range(5))], [[0, 1], [2], [3], [4]])
        self.assertEqual(rows(facts, range(5))[0].text, "StorageLive(_1), StorageDead(_2)")
        many = facts_of(6, *(f"# point {p}: line 1: nop (bb0[{p}])" for p in range(6)))
        self.assertEqual([row.points for row in rows(many, range(6))], [[0, 1, 2, 3], [4, 5]])


class Layers(unittest.TestCase):
    def drawn(self, boxes, edges, size=(40, 20, 0)):
        shape = layout.shape_of(boxes, edges)
        return shape, layout.place(shape, [layout.Size(*size)] * boxes)

    def random_graph(self, seed):
        draw = random.Random(seed)
        boxes = draw.randint(1, 14)
        return boxes, sorted({(draw.randrange(boxes), draw.randrange(boxes))
                              for _ in range(draw.randint(0, 24))})

    def test_a_diamond(self):
        shape, drawing_ = self.drawn(4, [(0, 1), (0, 2), (1, 3), (2, 3)])
        self.assertEqual([sorted(layer) for layer in shape.layers], [[0], [1, 2], [3]])
        self.assertAlmostEqual(drawing_.corners[0][0], drawing_.corners[3][0])
        self.assertEqual(shape.turned, set())

    def test_edges_back_are_turned(self):
        shape, _ = self.drawn(3, [(0, 1), (1, 2), (2, 1)])
        self.assertEqual(shape.turned, {(2, 1)})
        self.assertEqual([sorted(n for n in layer if n < 3) for layer in shape.layers],
                         [[0], [1], [2]])

    def test_edges_go_down_and_boxes_are_apart(self):
        for seed in range(200):
            boxes, edges = self.random_graph(seed)
            shape, drawn = self.drawn(boxes, edges, (40, 20, 60))
            level = {number: at for at, layer in enumerate(shape.layers) for number in layer}
            for edge, path in shape.paths.items():
                self.assertEqual([level[n] for n in path],
                                 list(range(level[path[0]], level[path[-1]] + 1)))
                self.assertEqual((path[-1], path[0]) if edge in shape.turned
                                 else (path[0], path[-1]), edge)
            corners = drawn.corners
            self.assertEqual(len(corners), boxes)
            for at, (x, y) in enumerate(corners):
                self.assertTrue(0 <= x and x + 100 <= drawn.width and 0 <= y
                                and y + 20 <= drawn.height)
                for other_x, other_y in corners[:at]:
                    self.assertTrue(abs(x - other_x) > 100 or abs(y - other_y) > 20)

    def test_crossings_are_counted(self):
        for seed in range(100):
            draw = random.Random(seed)
            numbers = [draw.randrange(8) for _ in range(draw.randint(0, 12))]
            pairs = sum(a > b for at, b in enumerate(numbers) for a in numbers[:at])
            self.assertEqual(order.inversions(numbers), pairs)

    def test_what_hangs_together_stands_together(self):
        shape, _ = self.drawn(5, [(0, 2), (1, 3), (3, 1)])
        self.assertEqual(shape.layers[:2], [[0], [2]])
        self.assertEqual(sorted(shape.layers[2]), [1, 4])

    def test_sweeps_take_crossings_away(self):
        before = after = 0
        for seed in range(200):
            boxes, edges = self.random_graph(seed)
            shape = layout.shape_of(boxes, edges)
            count = 1 + max(number for layer in shape.layers for number in layer)
            _, below = order.neighbours(shape.paths.values(), count)
            layers = [sorted(layer) for layer in shape.layers]
            first = order.crossings(order.by_first_visit(layers, below), below)
            last = order.crossings(shape.layers, below)
            self.assertLessEqual(last, first)
            before, after = before + first, after + last
        self.assertLess(after, 0.8 * before)

    def test_no_crossing_where_none_is_needed(self):
        edges = [(0, 1), (0, 2), (0, 3), (1, 6), (2, 5), (3, 4), (4, 7), (5, 7), (6, 7)]
        shape, _ = self.drawn(8, edges)
        _, below = order.neighbours(shape.paths.values(), 8)
        self.assertEqual(order.crossings(shape.layers, below), 0)


class Drawings(unittest.TestCase):
    def test_each_point_has_a_cell(self):
        facts = read_facts(file_bytes(SAMPLES, "pick.facts"), "pick.facts")
        graph = drawing.graph_of(facts)
        for svg in (drawing.folded(graph), drawing.unfolded(graph)):
            for point in range(facts.points):
                self.assertEqual(svg.count(f'<g class="cell" data-p="{point}"'), 1)
            for edge in ("4-5", "4-7", "6-7"):
                self.assertEqual(svg.count(f'data-edge="{edge}"'), 1)

    def test_edges_to_code_that_unwinds_are_stubs(self):
        edges = [f"next {p} {p + 1}" for p in range(5)] + [f"next {p} 6" for p in range(4)]
        for said, points, lines, drawn in (
                ("several edges", 7, ["# point 6: resume (bb9[0])", *edges, "return 5", "return 6"],
                 ({0: [6], 1: [6], 2: [6], 3: [6]}, [[0, 1, 2, 3, 4, 5], [6]], [], [True, False])),
                ("a single edge", 3, ["next 0 1", "next 0 2", "return 1"],
                 ({}, [[0], [1], [2]], [(0, 1), (0, 2)], [True, True, False])),
                ("a function that never returns", 2, ["next 0 1", "next 1 0"], ({}, [[0, 1]], [(0, 0)], [True]))):
            with self.subTest(said=said):
                graph = drawing.graph_of(facts_of(points, *lines))
                self.assertEqual((graph.stubs, graph.lines, graph.edges, graph.returning), drawn)

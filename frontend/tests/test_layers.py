"""The modules of frontend/nllc_tools import downwards only, in no cycle, and are small."""

import ast
import unittest
from collections import Counter

import layers
from layers import Module


def edges_of(**texts):
    """The imports of modules with these texts; `base__one` is base.one."""
    known = {name.replace("__", "."): Module(name.replace("__", "."), 1, ast.parse(text)) for name, text in texts.items()}
    return layers.graph(known)


class Layers(unittest.TestCase):
    @classmethod
    def setUpClass(cls):
        cls.modules = layers.modules()
        cls.edges = layers.graph(cls.modules)

    def test_imports_are_downwards(self):
        self.assertEqual(layers.upward(self.edges), [])

    def test_no_cycle(self):
        self.assertEqual(layers.cycle(self.edges), [])

    def test_each_folder_is_a_layer(self):
        self.assertEqual({module.layer() for module in self.modules.values()}, set(layers.LAYERS))

    def test_modules_are_small(self):
        self.assertEqual([(name, module.lines) for name, module in self.modules.items()
                          if module.lines > layers.MOST_LINES], [])

    def test_folders_are_small(self):
        counts = Counter(module.folder() for module in self.modules.values())
        self.assertEqual([(folder, count) for folder, count in counts.items() if count > layers.MOST_MODULES], [])


class Made(unittest.TestCase):
    """What the test must find."""

    def test_an_import_upwards(self):
        for said in ("from nllc_tools.views import two", "from nllc_tools.views.two import name", "import nllc_tools.views.two",
                     "def late():\n    from nllc_tools.views import two"):
            with self.subTest(said=said):
                self.assertEqual(layers.upward(edges_of(rustc__one=said, views__two="")), [("rustc.one", "views.two")])

    def test_a_relative_import(self):
        self.assertEqual(layers.upward(edges_of(base__one="from . import two", base__two="")), [("base.one", ".")])

    def test_an_import_of_what_isnt_there(self):
        self.assertEqual(layers.upward(edges_of(base__one="from nllc_tools.base import two")), [("base.one", "base")])

    def test_a_cycle(self):
        edges = edges_of(base__one="from nllc_tools.base.two import name", base__two="import nllc_tools.base.one",
                         base__three="from nllc_tools.base import one", base__four="import os")
        self.assertEqual(layers.cycle(edges), ["base.one", "base.three", "base.two"])

    def test_imports_downwards(self):
        edges = edges_of(views__two="from nllc_tools.rustc.one import name\nfrom nllc_tools.views import three",
                         views__three="import json", rustc__one="")
        self.assertEqual((layers.upward(edges), layers.cycle(edges)), ([], []))

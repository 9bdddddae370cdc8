"""Closures, async bodies and the lifetimes around them, in words."""

import unittest

from page_support import facts_of

from nllc_tools.judge.names import function_words, region_text


def named(name, *remarks):
    return facts_of(1, f"# function: {name}", *remarks, "region 'x")


class Names(unittest.TestCase):
    def test_functions(self):
        for name, words in (("pick", "pick"), ("<Type as Trait>::get", "<Type as Trait>::get"),
                            ("counter::{closure#0}", "closure 1 of counter"),
                            ("a::b::{closure#1}::{closure#0}", "closure 1 in closure 2 of a::b"),
                            ("<impl Fn(u8) -> u8>::call::{closure#0}", "closure 1 of <impl Fn(u8) -> u8>::call")):
            with self.subTest(name=name):
                self.assertEqual(function_words(named(name)), words)

    def test_async_bodies(self):
        remark = "# region 'x: line 6: region 1 of 2 in the type of the temporary _1: {async fn body of fetch()}"
        self.assertEqual(function_words(named("fetch::{closure#0}", remark)), "async body of fetch")
        block = "# region 'x: the type of _1: {async block@a.rs:1:2: 3:4}"
        self.assertEqual(function_words(named("fetch::{closure#0}", block)), "async block of fetch")

    def test_lifetimes_around_a_closure(self):
        facts = named("a::counter::{closure#0}")
        self.assertEqual(region_text(facts, "'r1 of the function around this closure; region 2 of 4"),
                         "an unnamed lifetime of a::counter; region 2 of 4")
        self.assertEqual(region_text(facts, "'a of the function around this closure"), "'a of a::counter")
        self.assertEqual(region_text(facts, "the type of best"), "the type of best")

"""The forms of lines of both kinds of texts, and the words of the kinds of fault (docs/FORMATS.md)."""

# Of a facts text: what a line is written as.
FACTS = {
    "points": "points N",
    "universal": "universal 'a",
    "outlives": "outlives 'a 'b",
    "region": "region 'x",
    "next": "next P Q",
    "return": "return P",
    "base": "base 'x P",
    "constraint": "constraint 'a 'b P, or in version 2 constraint 'a 'b all",
    "end": "end",
}
FACTS_ORDER = "one `points` line, then `universal`, `outlives` and `region` lines, then all others, then `end`"

# Of a MIR text; a line that begins with a place is an assignment, a borrow, a `make` or a call.
MIR = {
    "universal": "universal 'a",
    "outlives": "outlives 'a 'b",
    "region": "region 'x",
    "assert": "assert 'x : 'y, in version 2",
    "struct": "struct NAME <PARAMETER, ..> drop (TYPE, ..)",
    "let": "let VARIABLE: TYPE",
    "blocks": "blocks N",
    "block": "block BB",
    "read": "read PLACE",
    "live": "live VARIABLE",
    "dead": "dead VARIABLE",
    "nop": "nop",
    "goto": "goto BB",
    "switch": "switch OPERAND BB ..",
    "drop": "drop VARIABLE -> BB",
    "return": "return",
    "stop": "stop",
    "end": "end",
}
PLACE = ("PLACE = OPERAND, PLACE = &'r PLACE, PLACE = &'r mut PLACE, PLACE = make TYPE (OPERAND, ..) or "
         "PLACE = call WORD (OPERAND: TYPE, ..): TYPE -> BB")
MIR_ORDER = ("`universal`, `outlives`, `region`, `assert`, `struct` and `let` lines, one `blocks` line, blocks of a `block` "
             "line, statements and one terminator, then `end`")

KINDS = {
    "not utf-8": "the line isn't UTF-8",
    "header": "line 1 has to be `nll-facts 1`, `nll-facts 2`, `nll-mir 1` or `nll-mir 2`",
    "syntax": "the line has none of the forms, or is out of order",
    "unknown": "a name that no earlier line declares",
    "duplicate": "a name that is declared already",
    "range": "a number that isn't allowed in its place",
    "shape": "types that don't fit, or another number of arguments than there are parameters or parts",
    "type size": "a type of more than 4,096 nodes",
    "limit text": "the text has more than 67,108,864 bytes",
    "limit points": "there may be 1,048,576 points",
    "limit edges": "there may be 4,194,304 edges",
    "limit universals": "there may be 256 universal regions, 'static included",
    "limit regions": "there may be 65,536 regions",
    "limit constraints": "there may be 1,048,576 constraints",
    "limit variables": "there may be 65,536 variables",
    "limit structs": "there may be 1,024 structs",
    "end": "the text stops before its `end` line",
}

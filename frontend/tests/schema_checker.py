"""Whether a value is as a JSON Schema has it, for the words of JSON Schema that the schemas of docs/ use."""

import re

KINDS = {"object": dict, "array": list, "string": str, "integer": int, "boolean": bool, "null": type(None)}
SILENT = {"$schema", "$defs", "title", "description"}


def errors(value, schema, root=None, path="$"):
    """What is wrong with the value: a list of lines, each with a path to the part."""
    root = schema if root is None else root
    found = []
    for word in schema.keys() - SILENT:
        found += CHECKS[word](value, schema[word], schema, root, path)
    return found


def check_ref(value, name, _schema, root, path):
    return errors(value, root["$defs"][name.removeprefix("#/$defs/")], root, path)


def check_type(value, kind, _schema, _root, path):
    is_right = isinstance(value, KINDS[kind]) and not (kind == "integer" and isinstance(value, bool))
    return [] if is_right else [f"{path}: no {kind}"]


def check_properties(value, properties, _schema, root, path):
    if not isinstance(value, dict):
        return []
    return [line for name, its in properties.items() if name in value
            for line in errors(value[name], its, root, f"{path}.{name}")]


def check_required(value, names, _schema, _root, path):
    return [f"{path}: no {name}" for name in names if isinstance(value, dict) and name not in value]


def check_additional(value, is_allowed, schema, _root, path):
    further = value.keys() - schema["properties"].keys() if isinstance(value, dict) else ()
    return [] if is_allowed else [f"{path}: further {name}" for name in sorted(further)]


def check_items(value, its, _schema, root, path):
    if not isinstance(value, list):
        return []
    return [line for number, one in enumerate(value) for line in errors(one, its, root, f"{path}[{number}]")]


def check_any(value, schemas, _schema, root, path):
    return [] if any(not errors(value, one, root) for one in schemas) else [f"{path}: none of {len(schemas)} forms"]


def failing(test, words):
    """A check that a value of its kind passes or that has one line."""
    return lambda value, wanted, _schema, _root, path: [] if test(value, wanted) else [f"{path}: {words} {wanted}"]


CHECKS = {
    "$ref": check_ref, "type": check_type, "properties": check_properties, "required": check_required,
    "additionalProperties": check_additional, "items": check_items, "anyOf": check_any,
    "enum": failing(lambda value, wanted: value in wanted, "none of"),
    "const": failing(lambda value, wanted: value == wanted, "isn't"),
    "minimum": failing(lambda value, least: not isinstance(value, int) or value >= least, "below"),
    "minItems": failing(lambda value, least: not isinstance(value, list) or len(value) >= least, "fewer than"),
    "maxItems": failing(lambda value, most: not isinstance(value, list) or len(value) <= most, "more than"),
    "pattern": failing(lambda value, wanted: not isinstance(value, str) or re.search(wanted, value), "doesn't match"),
}

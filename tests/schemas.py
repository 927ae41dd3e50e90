"""The part of JSON Schema (2020-12) that docs/tracenode.schema.json has, and whether a value is as a schema says."""
import json
import re

from harness import TOP

SCHEMA = json.loads((TOP / "docs" / "tracenode.schema.json").read_text())

# The words of a schema that say nothing of a value.
WORDS = {"$schema", "title", "description", "$defs"}

TYPES = {"object": dict, "array": list, "string": str, "integer": int, "boolean": bool, "null": type(None)}


def has_type(value, name):
    """Whether the value has the type of this name; true and false are no integers."""
    return isinstance(value, TYPES[name]) and isinstance(value, bool) == (name == "boolean")


def obeys(value, word, wanted, schema):
    """Whether the value is as one word of the schema says. A word that isn't known raises KeyError."""
    if word == "$ref":
        return is_valid(value, SCHEMA["$defs"][wanted.removeprefix("#/$defs/")])
    if word == "oneOf":
        return sum(is_valid(value, one) for one in wanted) == 1
    if word == "additionalProperties":
        return wanted or set(value) <= set(schema["properties"])
    tests = {
        "type": lambda: has_type(value, wanted),
        "enum": lambda: value in wanted,
        "minimum": lambda: value >= wanted,
        "maximum": lambda: value <= wanted,
        "pattern": lambda: re.search(wanted, value) is not None,
        "items": lambda: all(is_valid(item, wanted) for item in value),
        "required": lambda: set(wanted) <= set(value),
        "properties": lambda: all(is_valid(value[key], of) for key, of in wanted.items() if key in value),
    }
    return tests[word]()


def is_valid(value, schema=SCHEMA):
    """Whether the value is as the schema says: its type first, and then the rest."""
    words = sorted((word for word in schema if word not in WORDS), key=lambda word: word != "type")
    return all(obeys(value, word, schema[word], schema) for word in words)

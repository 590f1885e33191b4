"""Holds values to a JSON Schema (draft 2020-12), for the words that docs/check.schema.json uses. Another word is an
error, so that no rule of a schema is passed over."""
import json
import re

NOTES = ("$schema", "$defs", "title", "description")
KINDS = {
    "null": lambda v: v is None,
    "boolean": lambda v: isinstance(v, bool),
    "integer": lambda v: is_number(v) and v == int(v),
    "number": lambda v: is_number(v),
    "string": lambda v: isinstance(v, str),
    "array": lambda v: isinstance(v, list),
    "object": lambda v: isinstance(v, dict),
}


class BadSchema(Exception):
    pass


def is_number(value):
    return isinstance(value, (int, float)) and not isinstance(value, bool)


def is_same(a, b):
    """Whether two values are equal in JSON, where true is not 1."""
    if isinstance(a, bool) or isinstance(b, bool):
        return a is b
    if isinstance(a, list) and isinstance(b, list):
        return len(a) == len(b) and all(map(is_same, a, b))
    if isinstance(a, dict) and isinstance(b, dict):
        return a.keys() == b.keys() and all(is_same(a[key], b[key]) for key in a)
    return a == b


def kinds_of(argument):
    """The kinds that the word `type` names."""
    return [argument] if isinstance(argument, str) else argument


def value_of(text):
    """The value of a JSON text. A key that an object has twice is refused."""
    def object_of(pairs):
        if len({key for key, _ in pairs}) < len(pairs):
            raise ValueError(f"a key twice: {[key for key, _ in pairs]}")
        return dict(pairs)
    return json.loads(text, object_pairs_hook=object_of)


# ---- the words: each gives the faults of a value, as a word, a place and what is there


class Rules:
    """The words of a schema. `used` counts how many values each definition described."""

    def __init__(self, schema):
        self.schema, self.used = schema, {}
        self.check_words(schema)

    def faults(self, value, name=None):
        """The faults of a value by the schema, or by one of its definitions."""
        return list(self.apply({"$ref": f"#/$defs/{name}"} if name else self.schema, "", value))

    def apply(self, schema, place, value):
        for word, argument in schema.items():
            if word not in NOTES:
                yield from WORDS[word](self, argument, schema, place, value)

    def definition(self, reference):
        before, found, name = reference.partition("#/$defs/")
        if before or not found or name not in self.schema.get("$defs", {}):
            raise BadSchema(f"no definition: {reference}")
        return name, self.schema["$defs"][name]

    def check_words(self, schema):
        """Refuses a schema with a word that is not known here, below each definition, property and choice too."""
        for word in schema:
            if word not in NOTES and word not in WORDS:
                raise BadSchema(f"unknown word: {word}")
        if "$ref" in schema:
            self.definition(schema["$ref"])
        if not set(kinds_of(schema.get("type", []))) <= KINDS.keys():
            raise BadSchema(f"unknown type: {schema['type']}")
        if not re.fullmatch(r"\^[^$]*\$", schema.get("pattern", "^$")):
            raise BadSchema(f"a pattern that does not end at `$`: {schema['pattern']}")
        inner = [*schema.get("$defs", {}).values(), *schema.get("properties", {}).values()]
        inner += [*schema.get("oneOf", []), *schema.get("anyOf", [])]
        inner += [schema[word] for word in ("items", "additionalProperties") if isinstance(schema.get(word), dict)]
        for below in inner:
            self.check_words(below)

    def of_reference(self, reference, schema, place, value):
        name, inner = self.definition(reference)
        found = list(self.apply(inner, place, value))
        self.used[name] = self.used.get(name, 0) + (not found)
        yield from found

    def of_type(self, kinds, schema, place, value):
        if not any(KINDS[kind](value) for kind in kinds_of(kinds)):
            yield "type", place, value

    def of_enum(self, values, schema, place, value):
        if not any(is_same(value, one) for one in values):
            yield "enum", place, value

    def of_const(self, wanted, schema, place, value):
        if not is_same(value, wanted):
            yield "const", place, value

    def of_pattern(self, pattern, schema, place, value):
        if isinstance(value, str) and not re.search(pattern[:-1] + r"\Z", value, re.ASCII):
            yield "pattern", place, value

    def of_minimum(self, least, schema, place, value):
        if is_number(value) and value < least:
            yield "minimum", place, value

    def of_items(self, inner, schema, place, value):
        for at, item in enumerate(value if isinstance(value, list) else []):
            yield from self.apply(inner, f"{place}[{at}]", item)

    def of_min_items(self, least, schema, place, value):
        if isinstance(value, list) and len(value) < least:
            yield "minItems", place, value

    def of_max_items(self, most, schema, place, value):
        if isinstance(value, list) and len(value) > most:
            yield "maxItems", place, value

    def of_required(self, keys, schema, place, value):
        for key in keys if isinstance(value, dict) else []:
            if key not in value:
                yield "required", f"{place}.{key}", value

    def of_properties(self, inner, schema, place, value):
        for key, item in (value.items() if isinstance(value, dict) else []):
            if key in inner:
                yield from self.apply(inner[key], f"{place}.{key}", item)

    def of_additional(self, inner, schema, place, value):
        for key, item in (value.items() if isinstance(value, dict) else []):
            if key in schema.get("properties", {}) or inner is True:
                continue
            if inner is False:
                yield "additionalProperties", f"{place}.{key}", item
            else:
                yield from self.apply(inner, f"{place}.{key}", item)

    def fitting(self, choices, place, value):
        """How many of some schemas a value fits, and the faults by the one that it fits best."""
        found = [list(self.apply(choice, place, value)) for choice in choices]
        return sum(not faults for faults in found), min(found, key=len)

    def of_one(self, choices, schema, place, value):
        count, nearest = self.fitting(choices, place, value)
        if count != 1:
            yield "oneOf", place, value
            yield from nearest

    def of_any(self, choices, schema, place, value):
        count, nearest = self.fitting(choices, place, value)
        if not count:
            yield "anyOf", place, value
            yield from nearest


WORDS = {
    "$ref": Rules.of_reference,
    "type": Rules.of_type,
    "enum": Rules.of_enum,
    "const": Rules.of_const,
    "pattern": Rules.of_pattern,
    "minimum": Rules.of_minimum,
    "items": Rules.of_items,
    "minItems": Rules.of_min_items,
    "maxItems": Rules.of_max_items,
    "required": Rules.of_required,
    "properties": Rules.of_properties,
    "additionalProperties": Rules.of_additional,
    "oneOf": Rules.of_one,
    "anyOf": Rules.of_any,
}

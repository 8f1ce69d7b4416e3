"""Byte strings that hold CBOR as embedded sequences, as `show` shows them, written from its rules.

A string of one literal in hexadecimal digits whose bytes encode exactly one array, map or tag is `<<..>>` of that item, to so many levels,
and so deep as the deepest item of the input leaves room within the limit.
"""

import cbor
import edn

LEVELS = 8
STRUCTURES = ("array", "map", "tag")


def shown(items, levels, limit):
    """The items of an input with what is shown in them."""
    room = limit - max(map(edn.nesting, items), default=0)
    return [with_shown(item, levels, room) for item in items]


def with_shown(item, levels, room):
    form = item[0]
    if form == "array":
        return form, item[1], [with_shown(part, levels, room) for part in item[2]]
    if form == "map":
        return form, item[1], [(with_shown(key, levels, room), with_shown(value, levels, room)) for key, value in item[2]]
    if form == "tag":
        return form, item[1], item[2], with_shown(item[3], levels, room)
    if form == "string" and levels > 0 and room > 0:
        return with_content(item, levels, room)
    return item


def with_content(item, levels, room):
    _, prefix, text, indicator = item[1][0]
    structure = structure_of(bytes.fromhex(text), room - 1) if prefix == "h" else None
    if structure is None:
        return item
    inside = with_shown(structure, levels - 1, room - 1 - edn.nesting(structure))
    return "string", [("embedded", [inside], indicator)]


def structure_of(data, limit):
    items, _ = cbor.read(data, limit)
    return items[0] if items is not None and len(items) == 1 and items[0][0] in STRUCTURES else None

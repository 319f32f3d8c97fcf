"""The run pack of document 01, "The player": its layout, the words for its parts, and which rule a pack breaks."""

from typing import NamedTuple

PACK_MOST = 65535
MESSAGE_MOST = 1785
BODIES = ("settings", "message", "events")
HEAD = 1 + 4 * len(BODIES)  # the count byte and the contents table


class Setting(NamedTuple):
    width: int
    least: int
    most: int


# The settings body: its fields in their order.
SETTINGS = {
    "gap": Setting(1, 1, 10),
    "sender timeout": Setting(2, 1, 10000),
    "sending time": Setting(2, 1, 60000),
    "receiver timeout": Setting(2, 1, 10000),
    "window": Setting(1, 1, 255),
    "capacity": Setting(2, 9, 1785),
}
SETTINGS_LENGTH = sum(setting.width for setting in SETTINGS.values())

EVENTS = {
    "sender tick": 1,
    "receiver tick": 2,
    "forward hear": 3,
    "forward lose": 4,
    "forward repeat": 5,
    "back hear": 6,
    "back lose": 7,
    "back repeat": 8,
}


class Fault(NamedTuple):
    """What the player refuses: its number, the offset in the pack, and the reason in words."""

    refusal: int
    offset: int
    words: str


def word(pack, offset):
    return int.from_bytes(pack[offset : offset + 2], "little")


def broken(pack):
    """The first rule of the pack's form that it breaks (refusal 12), or None."""

    def fault(offset, words):
        return Fault(12, offset, words)

    if len(pack) > PACK_MOST:
        return fault(PACK_MOST, f"the pack goes on after {PACK_MOST} bytes, the most that one has")
    if pack[:1] != bytes([len(BODIES)]):
        return fault(0, f"the count byte is {pack[0]}, not {len(BODIES)}" if pack else "the pack is empty")
    if len(pack) < HEAD:
        return fault(len(pack), f"the pack ends within the contents table, which goes to offset {HEAD}")
    end, before = HEAD, "contents table"
    for row, body in zip(range(1, HEAD, 4), BODIES):
        begin, length = word(pack, row), word(pack, row + 2)
        if begin != end:
            return fault(row, f"the table has the {body} at {begin}, and the {before} before ends at {end}")
        if body == "settings" and length != SETTINGS_LENGTH:
            return fault(row + 2, f"the table gives the settings {length} bytes, not {SETTINGS_LENGTH}")
        end, before = begin + length, body
        if end > len(pack):
            return fault(row + 2, f"the table has the end of the {body} at {end}, and the pack ends at {len(pack)}")
    if end < len(pack):
        return fault(end, f"the events end here by the table, and the pack at {len(pack)}")
    first = word(pack, 9)
    for place, event in enumerate(pack[first:]):
        if event not in EVENTS.values():
            return fault(first + place, f"event {place + 1} is {event}, and events are 1 to {max(EVENTS.values())}")
    return None


def bodies(pack):
    """The bodies of an unbroken pack, by name."""
    return {body: pack[word(pack, row) :][: word(pack, row + 2)] for row, body in zip(range(1, HEAD, 4), BODIES)}


def settings(body):
    """Name, value and offset in the body of each setting."""
    offset = 0
    for name, setting in SETTINGS.items():
        yield name, int.from_bytes(body[offset : offset + setting.width], "little"), offset
        offset += setting.width


def out_of_limits(pack):
    """The settings of an unbroken pack that are outside their limits (refusal 1)."""
    return [
        Fault(1, HEAD + offset, f"the {name} is {value}, and its limits are {SETTINGS[name].least} to {SETTINGS[name].most}")
        for name, value, offset in settings(bodies(pack)["settings"])
        if not SETTINGS[name].least <= value <= SETTINGS[name].most
    ]


def bad_message(pack):
    """The fault of an unbroken pack's message (refusal 2), or None."""
    length = len(bodies(pack)["message"])
    if 1 <= length <= MESSAGE_MOST:
        return None
    return Fault(2, word(pack, 5), f"the message has {length} bytes, and its limits are 1 to {MESSAGE_MOST}")


def refused(pack):
    """Why the player refuses the pack, the fault that it goes by; None where it plays."""
    return broken(pack) or next(iter(out_of_limits(pack)), None) or bad_message(pack)

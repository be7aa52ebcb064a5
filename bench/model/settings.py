"""Settings of the host: the section @host.toml."""
import re
import tomllib

from words import is_dotted, is_identifier

CAPACITY = 4096  # where it isn't set
QUEUE_LIMIT = 1  # likewise
Check = tuple[type, object]  # a type of value, and what is asked of the value: a range or a form


class SettingsFault(Exception):
    def __init__(self, fault: str) -> None:
        super().__init__(f"settings {fault}")


HOST_KEYS = {"capacity": (int, range(16, 1_048_576 + 1)), "queue_limit": (int, range(1, 8 + 1)), "budget": (int, range(1, 1_000_000 + 1))}
DEVICE_KEYS = {"unit": (str, is_identifier), "task": (str, is_identifier), "object": (str, is_dotted), "operation": (str, is_identifier),
               "priority": (int, range(1, 40 + 1)), "calls": (int, range(1, 1_000_000 + 1))}


def in_order(table: dict[str, object]) -> list[tuple[str, object]]:
    """The keys in the order of their bytes, with their values."""
    return sorted(table.items(), key=lambda item: item[0].encode())


def check_value(value: object, check: Check) -> None:
    kind, allowed = check
    is_good = type(value) is kind and (value in allowed if isinstance(allowed, range) else allowed(value))
    if not is_good:
        raise SettingsFault("BadValue")


def check_device(device: object) -> None:
    if not isinstance(device, dict):
        raise SettingsFault("BadValue")
    for key, value in in_order(device):
        if key not in DEVICE_KEYS:
            raise SettingsFault("UnknownKey")
        check_value(value, DEVICE_KEYS[key])


def is_wide(value: object) -> bool:
    """Whether a whole number in the value is past 64 bits."""
    if isinstance(value, dict):
        return any(is_wide(each) for each in value.values())
    if isinstance(value, list):
        return any(is_wide(each) for each in value)
    return isinstance(value, int) and not -(2**63) <= value < 2**63


PIECES = re.compile(r'"""[\s\S]*?"""|\'\'\'[\s\S]*?\'\'\'|"(?:\\.|[^"\\\n])*"|\'[^\'\n]*\'|#[^\n]*|[\s\S]')


def with_plain_tables(text: str) -> str:
    """The same with each inline table on one line and without a last comma, as TOML 1.0 has it; its comments are left alone."""
    pieces, depth = [], 0
    for piece in PIECES.findall(text):
        depth += {"{": 1, "}": -1}.get(piece, 0)
        pieces.append(" " if piece == "\n" and depth > 0 else piece)
    return re.sub(r"(?<=[^,{\s])([ \t]*),([ \t]*\})", r"\1\2", "".join(pieces))


def read_toml(text: str) -> dict[str, object]:
    """The table of a text in TOML 1.1, of which `tomllib` knows all but `\\e`, `\\xHH`, times without seconds, and line feeds and a last comma
    in an inline table: a byte order mark is passed over, and a number past 64 bits is none."""
    text = re.sub(r'(?<!\\)((?:\\\\)*)\\e', r"\1\\u001b", text.removeprefix("\ufeff"))
    text = re.sub(r'(?<!\\)((?:\\\\)*)\\x([0-9A-Fa-f]{2})', r"\1\\u00\2", text)
    try:
        table = tomllib.loads(text)
    except tomllib.TOMLDecodeError:
        try:
            table = tomllib.loads(with_plain_tables(text))
        except tomllib.TOMLDecodeError:
            raise SettingsFault("NotToml")
    if is_wide(table):
        raise SettingsFault("NotToml")
    return table


def read_settings(text: str) -> tuple[int, int]:
    """The capacity and the limit of queues that a section's text sets, of which the carriage return before a line feed is no part."""
    table = read_toml(text)
    devices = []
    for key, value in in_order(table):
        if key == "device":
            check_value(value, (list, lambda _: True))
            devices = value
            for device in devices:
                check_device(device)
        elif key in HOST_KEYS:
            check_value(value, HOST_KEYS[key])
        else:
            raise SettingsFault("UnknownKey")
    if any(len(device) < len(DEVICE_KEYS) for device in devices):
        raise SettingsFault("BadValue")
    return table.get("capacity", CAPACITY), table.get("queue_limit", QUEUE_LIMIT)

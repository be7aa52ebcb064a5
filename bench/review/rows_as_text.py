"""The rows of `access --json`, as `access` prints them."""
import json
import sys

KEYS = {"caller", "object", "operation", "from", "granted", "line", "line_text"}


def decided(row):
    """What a line decides, in words; the line 0 is none."""
    if (row["line"] == 0) != (row["line_text"] == "no line"):
        sys.exit(f"a line that isn't there: {row}")
    return ("granted: " if row["granted"] else "not granted: ") + row["line_text"]


for line in sys.stdin:
    row = json.loads(line)
    if row.keys() - {"until", "against"} != KEYS:
        sys.exit(f"other fields: {line}")
    until = f" until tick {row['until']}" if "until" in row else ""
    against = f", against {decided(row['against'])}" if "against" in row else ""
    print(f"{row['caller']} {row['object']} {row['operation']} from tick {row['from']}{until} -> {decided(row)}{against}")

"""Verdicts of python3's own json module: of each line of standard input, bytes in hexadecimal, `text` or `none`.

What that module takes and the library does not is taken out: NaN and Infinity, and more than 32 arrays or objects open at once.
"""

import json
import sys


def refuse(name):
    raise ValueError(name)


def depth(value):
    return 1 + max(map(depth, value), default=0) if isinstance(value, list) else 0


def is_text(text):
    try:
        value = json.loads(
            text.decode("utf-8"),
            parse_constant=refuse,
            parse_int=str,
            # An object as the list of its values, those of a repeated name too.
            object_pairs_hook=lambda pairs: [value for _, value in pairs],
        )
        return depth(value) <= 32
    except (ValueError, RecursionError):
        return False


for line in sys.stdin:
    print("text" if is_text(bytes.fromhex(line)) else "none")

#!/usr/bin/env python3
"""Reads a manual page as mandoc prints it on lines without an end, and tells its sentences of over 20 words, with 1 then.
Examples and the synopsis aren't sentences.

    mandoc -Tutf8 -Owidth=1000 PAGE | col -b | bench/page_sentences.py
"""
import re
import sys

MOST = 20
NO_SENTENCES = ("SYNOPSIS", "EXAMPLES")


def main():
    heading, long, count = "", [], 0
    for line in sys.stdin:
        if re.match(r"\S", line):
            heading = line.strip()
        if heading in NO_SENTENCES:
            continue
        # A sentence ends at a point, a question mark or an exclamation mark before a blank, and at the line's end.
        for sentence in re.split(r"(?<=[.?!])\s+", line.strip()):
            count += bool(sentence)
            if len(sentence.split()) > MOST:
                long.append(sentence)
    for sentence in long:
        print(f"{len(sentence.split())} words: {sentence}")
    print(f"{count} sentences, {len(long)} of over {MOST} words")
    return 1 if long or not count else 0


if __name__ == "__main__":
    sys.exit(main())

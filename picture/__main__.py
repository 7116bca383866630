"""Draws the transcript of a schedule.

    python3 picture [--svg] SCHEDULE TRANSCRIPT > FILE

Writes a page for a browser, or with --svg the picture alone. Ends with 1 at other words, with 6 where the page could not be
written, and with 8 where there are more steps than a picture shows.
"""

import os
import sys

import drawing
import page
import story
import texts

MOST_STEPS = 5000


def main(words: list[str]) -> int:
    is_svg = words[:1] == ["--svg"]
    files = words[1:] if is_svg else words
    if len(files) != 2:
        print(__doc__, file=sys.stderr)
        return 1
    with open(files[0], encoding="ascii") as schedule, open(files[1], encoding="ascii") as transcript:
        run = texts.read(schedule.read(), transcript.read())
    if len(run.steps) > MOST_STEPS:
        return 8
    picture = drawing.Drawing(run, story.tell(run))
    try:
        sys.stdout.write(picture.svg(0, len(run.steps)) if is_svg else page.page(run, picture))
        sys.stdout.flush()
    except OSError:
        # What is left of the page goes nowhere, so that the end of the program does not fail by it again.
        os.dup2(os.open(os.devnull, os.O_WRONLY), sys.stdout.fileno())
        return 6
    return 0


if __name__ == "__main__":
    sys.exit(main(sys.argv[1:]))

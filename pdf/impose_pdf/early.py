"""Words that belong to the one before them."""

import re

CROP = re.compile("same|(same,)?[0-9.]+[a-z]*")  # what may follow --crop


def plainer(words: list[str]) -> list[str]:
    """A command line in words that are read one by one: what follows --crop is in one word with it."""
    made, is_open = list[str](), True
    for word in words:
        if is_open and made and made[-1] == "--crop" and CROP.fullmatch(word):
            made[-1] += f"={word}"
        else:
            made.append(word)
        is_open = is_open and word != "--"
    return made

"""Outlines, made anew so that they lead to sheets."""

from typing import Any

from pikepdf import Dictionary

from impose_pdf.links import Ways

LOST = {"/Parent", "/Prev", "/Next", "/First", "/Last", "/Count", "/SE", "/Dest", "/A"}
DEEPEST = 100


def items(ways: Ways, above: Any, depth: int, seen: set[tuple[int, int]]) -> list[Any]:
    """The items below one of a PDF, each with those below it. One without a target stays, and leads nowhere."""
    made = []
    item = above.get("/First") if isinstance(above, Dictionary) and depth < DEEPEST else None
    while isinstance(item, Dictionary) and item.objgen not in seen:
        seen.add(item.objgen)
        new = ways.bare(item, LOST)
        if led := ways.lead_holder(item):
            new[led[0]] = led[1]
        count = item.get("/Count")
        hang(new, items(ways, item, depth + 1, seen), not isinstance(count, int) or count > 0)
        made.append(new)
        item = item.get("/Next")
    return made


def hang(above: Any, below: list[Any], is_open: bool) -> None:
    """Puts items below one, or below the outlines themselves."""
    if not below:
        return
    for before, after in zip(below, below[1:]):
        before.Next, after.Prev = after, before
    for item in below:
        item.Parent = above
    above.First, above.Last = below[0], below[-1]
    count = len(below) + sum(max(0, int(item.get("/Count", 0))) for item in below)
    above.Count = count if is_open else -count

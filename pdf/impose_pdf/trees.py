"""Parts of a PDF that are joined from several: name trees and layers."""

from collections.abc import Iterator
from typing import Any

from pikepdf import Array, Dictionary, Name, String

from impose_pdf.pages import are_new

OF_LAYERS = ("/ON", "/OFF", "/Order", "/RBGroups", "/Locked", "/AS")


def named(node: Any) -> Iterator[tuple[Any, Any]]:
    """The names and values of a name tree. Nodes and arrays of the tree, and names that are objects, count once."""
    seen, left = set[tuple[int, int]](), [node]
    while left:
        node = left.pop()
        if not isinstance(node, Dictionary) or not are_new(seen, node):
            continue
        if isinstance(pairs := node.get("/Names"), Array) and are_new(seen, pairs):
            values = list(pairs)
            for name, value in zip(values[::2], values[1::2]):
                if isinstance(name, String) and are_new(seen, name):
                    yield name, value
        if isinstance(kids := node.get("/Kids"), Array) and are_new(seen, kids):
            left += reversed(list(kids))


def tree_of(values: dict[bytes, Any]) -> Any:
    """A name tree of these values."""
    return Dictionary(Names=Array([part for name in sorted(values) for part in (String(name), values[name])]))


def free(name: bytes, taken: dict[bytes, int]) -> bytes:
    """A name like this one that isn't taken; it is then. Each name that is taken has the number that is tried next."""
    chosen = name
    while chosen in taken:
        chosen = name + b"-%d" % taken[name]
        taken[name] += 1
    taken[chosen] = 2
    return chosen


def add_layers(root: Any, others: list[Any]) -> None:
    """Lists the layers of other PDFs, brought here, with those of a catalog; each is shown or hidden as it was."""
    left = list(reversed(others))
    while left and state_of(root.get("/OCProperties")) is None:
        root.OCProperties = left.pop()
    if not left:
        return
    layers, groups = root.OCProperties, list[Any]()
    added: dict[str, list[Any]] = {key: [] for key in OF_LAYERS}
    for other in reversed(left):
        groups += arrayed(other, "/OCGs")
        found = state_of(other)
        state = Dictionary() if found is None else found
        state.ON, state.OFF = states(other, state)
        for key, more in added.items():
            more += arrayed(state, key)
    extend(layers, "/OCGs", groups)
    for key, more in added.items():
        extend(layers.D, key, more)


def state_of(layers: Any) -> Any:
    """How layers are shown at first, or None if that isn't told."""
    state = layers.get("/D") if isinstance(layers, Dictionary) else None
    return state if isinstance(state, Dictionary) else None


def states(layers: Any, state: Any) -> tuple[Any, Any]:
    """The layers that are on at first, and those that are off. Those that aren't listed have the /BaseState."""
    is_off = state.get("/BaseState") == Name.OFF
    listed = {group.objgen for group in arrayed(state, "/ON" if is_off else "/OFF") if isinstance(group, Dictionary)}
    groups = [group for group in arrayed(layers, "/OCGs") if isinstance(group, Dictionary)]
    one, other = ([group for group in groups if (group.objgen in listed) == is_listed] for is_listed in (True, False))
    return (Array(one), Array(other)) if is_off else (Array(other), Array(one))


def extend(into: Any, key: str, more: list[Any]) -> None:
    """Gives a dictionary a longer array in place of one that it has, which may have other uses."""
    if more:
        into[key] = Array(arrayed(into, key) + more)


def arrayed(holder: Any, key: str) -> list[Any]:
    """The array that a dictionary has, or nothing."""
    found = holder.get(key)
    return list(found) if isinstance(found, Array) else []

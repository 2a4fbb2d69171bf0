"""The fields of pages that are kept, of all INFILEs: they may be filled in as before."""

from typing import Any

from pikepdf import Array, Dictionary, Pdf, String

from impose_pdf.document import Source
from impose_pdf.losses import is_signature
from impose_pdf.pages import drop, keys_of, number_of

LOST = {"/AA", "/Lock", "/SV"}  # scripts, and what is asked of signatures


class Form:
    """The form of the PDF that is made."""

    def __init__(self, made: Pdf):
        self.made, self.roots, self.sources = made, list[Any](), list[Source]()
        self.fields: dict[tuple[int, int], tuple[Any, list[Any]]] = {}  # and what is kept below each
        self.taken: dict[str, int] = {}  # names, each with the number that is tried next
        self.names: dict[tuple[Source, str], str] = {}
        self.resources: dict[str, dict[str, Any]] = {}

    def add(self, source: Source, fields: list[Any]) -> None:
        """Adds fields of a page, in the PDF that is made."""
        form = source.root.get("/AcroForm")
        if not fields or not isinstance(form, Dictionary):
            return
        if source not in self.sources:
            self.sources.append(source)
            self.add_resources(source, form.get("/DR"))
        for field in fields:
            if (root := self.hung(field)) is not None:
                self.roots.append(root)
                self.settle_root(source, form, root)

    def hung(self, field: Any) -> Any:
        """Hangs a field below those above it, up to one that is there already, or the root, which it gives then."""
        below = None
        while True:
            is_new = field.objgen not in self.fields
            _, kids = self.fields.setdefault(field.objgen, (field, []))
            if below is not None:
                kids.append(below)
            if not is_new:
                return None
            above = field.get("/Parent")
            if not isinstance(above, Dictionary) or not above.is_indirect:
                return field
            below, field = field, above

    def settle_root(self, source: Source, form: Any, root: Any) -> None:
        """Gives a root a name of its own, and what the form of its INFILE says of all fields."""
        if isinstance(name := root.get("/T"), String):
            try:
                root.T = String(self.named(source, str(name)))
            except UnicodeDecodeError:  # a name of no other
                pass
        if isinstance(look := form.get("/DA"), String) and "/DA" not in root:
            root.DA = String(bytes(look))
        if "/Q" in form and "/Q" not in root:
            root.Q = int(number_of(form.get("/Q"), 0))

    def named(self, source: Source, old: str) -> str:
        """The name of the fields of an INFILE that have this one there. Another is made as qpdf makes it."""
        if (source, old) not in self.names:
            chosen = old
            while chosen in self.taken:
                chosen = f"{old}+{self.taken[old]}"
                self.taken[old] += 1
            self.taken[chosen] = 1
            self.names[source, old] = chosen
        return self.names[source, old]

    def add_resources(self, source: Source, own: Any) -> None:
        """Adds the fonts of fields. Of two with one name, the first stays."""
        brought = source.ways.brought(own) if isinstance(own, Dictionary) else Dictionary()
        for kind in keys_of(brought):
            if isinstance(held := brought[kind], Dictionary):
                names = self.resources.setdefault(kind, {})
                for name in keys_of(held):
                    names.setdefault(name, held[name])

    def entry(self) -> Any:
        """The form, or None if no fields are kept."""
        for field, kids in self.fields.values():
            drop(field, LOST | ({"/V"} if is_signature(field.get("/V")) else set()) | {"/Kids"})
            if kids:
                field.Kids = Array(kids)
        if not self.roots:
            return None
        resources = Dictionary({kind: Dictionary(names) for kind, names in self.resources.items()})
        made = Dictionary(Fields=Array(self.roots), DR=resources)
        if any(source.needs_looks for source in self.sources):
            made.NeedAppearances = True
        return self.made.make_indirect(made)

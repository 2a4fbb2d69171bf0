"""What goes wrong in a PDF, which is named then."""

from collections.abc import Callable, Iterator
from contextlib import contextmanager
from functools import wraps
from typing import Any, TypeVar, cast

from pikepdf import DataDecodingError, ForeignObjectError, PdfError

from impose_pdf.reading import cause
from impose_pdf.words import Refusal, shown, told, way_to

Method = TypeVar("Method", bound=Callable[..., Any])
OF_PIKEPDF = PdfError, DataDecodingError, ForeignObjectError, RuntimeError
OF_OBJECTS = *OF_PIKEPDF, LookupError, TypeError, ValueError  # which pikepdf has for odd ones, too


@contextmanager
def blaming(names: list[str], *kinds: type[Exception]) -> Iterator[None]:
    """Names INFILEs where what is in them can't be worked on."""
    try:
        yield
    except kinds as error:
        raise blamed(names, error) from None


def blamed(names: list[str], error: Exception) -> Refusal:
    """The refusal of INFILEs in which is what can't be worked on."""
    why = f"{', '.join(map(shown, names))} can't be put on sheets: {cause(error)}"
    return Refusal(1, way_to(error) + told(why))


def of_source(method: Method) -> Method:
    """A method of a Source that names it where what is in it can't be worked on."""

    @wraps(method)
    def named(self: Any, *words: Any) -> Any:
        try:
            return method(self, *words)
        except OF_OBJECTS as error:
            raise blamed([self.name], error) from None

    return cast(Method, named)

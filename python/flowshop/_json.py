"""Shops and certificates as JSON."""

import json
from typing import Any, Dict, Hashable, List, Mapping, Optional, Tuple, Type, Union

from ._errors import FlowshopError, shown

Json = Union[str, bytes, bytearray]
# What json.loads raises where a text is none.
FAULTS = (ValueError, RecursionError)


def fault_of(error: Exception) -> Tuple[int, str]:
    """The line at which a text is no JSON, or 0, and why."""
    if isinstance(error, json.JSONDecodeError):
        return error.lineno, f"line {error.lineno} of the text is no JSON: {error.msg}"
    return 0, "the JSON of the text has a number of thousands of digits, or too many lists in lists"


def plain_names(names: Optional[Tuple[Hashable, ...]]) -> Optional[List[Union[str, int]]]:
    """Names as JSON has them: those that are neither text nor whole numbers, as labels of a frame may be, as text."""
    if names is None:
        return None
    return [name if isinstance(name, (str, int)) else str(name) for name in names]


def written(fields: Dict[str, Any]) -> str:
    """Fields as JSON, in one line."""
    return json.dumps(fields)


def read(text: Json, kinds: Mapping[str, Tuple[Any, ...]], error: Type[FlowshopError], maker: str) -> Dict[str, Any]:
    """The fields of a text, each of which is of one of some kinds. The error, which names what makes such a text, where
    it has another form."""
    try:
        fields = json.loads(text)
    except (TypeError, UnicodeDecodeError):
        raise error("JSON", 0, f"the text is {shown(text)}, and has to be what {maker} gives") from None
    except FAULTS as fault:
        line, why = fault_of(fault)
        is_begun = not line or isinstance(text, str) and text.lstrip()[:1] in ("{", "")
        raise error("JSON", line, f"{why}{'' if is_begun else '; a file is read by pathlib.Path'}") from None
    if not isinstance(fields, dict):
        raise error("JSON", 0, f"the text has {shown(fields)}, and has to be what {maker} gives")
    for name, of_kinds in kinds.items():
        if name not in fields:
            raise error("JSON", 0, f"the text has no {name!r}; it has to be what {maker} gives")
        value = fields[name]
        if type(value) not in of_kinds:
            raise error("JSON", 0, f"{name!r} of the text is {shown(value)}; it has to be what {maker} gives")
        if isinstance(value, list) and "names" in name and not {*map(type, value)} <= {str, int}:
            raise error("JSON", 0, f"{name!r} of the text has something that is neither text nor a whole number")
    return fields

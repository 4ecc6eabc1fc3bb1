"""JSON documents, and the parts of one that must be there."""

import json
from typing import Any

from .errors import ToolError


def parse(text: str) -> Any:
    """The value that the text spells."""
    try:
        return json.loads(text)
    except ValueError as error:
        raise ToolError(f"it is no JSON: {str(error)[:1].lower()}{str(error)[1:]}") from error
    except RecursionError as error:
        raise ToolError("its values stand too deep") from error


def load(text: str) -> dict[str, Any]:
    """The JSON object that the text spells."""
    top = parse(text)
    if not isinstance(top, dict):
        raise ToolError("it is no JSON object")
    return top


def objects(top: Any, key: str, entry: str) -> list[dict[str, Any]]:
    """The objects of the array that this member is."""
    found = top.get(key) if isinstance(top, dict) else None
    if not isinstance(found, list) or not all(isinstance(it, dict) for it in found):
        raise ToolError(f"{entry} has no {key} that is an array of objects")
    return found


def text_of(table: dict[str, Any], key: str, entry: str) -> str:
    """The text that this member is."""
    found = table.get(key)
    if not isinstance(found, str) or not found:
        raise ToolError(f"{entry} has no {key} that is a text")
    return found


def inner(table: Any, *keys: str) -> Any:
    """The value behind these keys, one within the other, or None."""
    for key in keys:
        table = table.get(key) if isinstance(table, dict) else None
    return table

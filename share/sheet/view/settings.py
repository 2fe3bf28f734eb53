"""Settings of panels, kept in the script as comments: `⍝ view NAME {"mode": "plot"}`. Every front end reads them as comments."""

from __future__ import annotations

import json
import re
from typing import Any, Dict, Iterable, List, Mapping, Optional

from ..files import Home
from ..lines import NAME

COMMENT = re.compile(rf"⍝ view ({NAME}) (\{{.*\}})\r?")
TYPES = {"mode": str, "full": bool, "hidden": bool, "turned": bool, "compared": bool, "rows": str, "columns": str}
MOST_CHARACTERS = 200  # characters of a value

Settings = Dict[str, Dict[str, Any]]  # of each name


def checked(settings: Any) -> Dict[str, Any]:
    """Returns the settings of a name that are known and have the right type."""
    if not isinstance(settings, dict):
        return {}
    return {key: value for key, value in settings.items() if type(value) is TYPES.get(key) and len(str(value)) <= MOST_CHARACTERS}


def settings_in(lines: Iterable[str]) -> Settings:
    """Returns the settings that comments among these lines have."""
    found: Settings = {}
    for line in lines:
        comment = COMMENT.fullmatch(line)
        settings = checked(parsed(comment[2])) if comment else {}
        if comment and settings:
            found[comment[1]] = settings
    return found


def parsed(text: str) -> Any:
    """Returns the value that a text of JSON has; None if it is no such text."""
    try:
        return json.loads(text)
    except (ValueError, RecursionError):
        return None


def with_settings(script: Home, settings: Mapping[str, Mapping[str, Any]], names: Iterable[str]) -> Home:
    """Returns a script with the settings of these names: in place of the comments that it has, or else at its end."""
    waiting = {name: comment_of(name, settings[name]) for name in names if settings.get(name)}
    end = "\r" if script.lines and script.lines[0].endswith("\r") else ""
    lines: List[str] = []
    moved = {}
    for number, line in enumerate(script.lines, 1):
        comment = COMMENT.fullmatch(line)
        made = waiting.pop(comment[1], None) if comment else line
        if made is not None:
            lines.append(made if made == line or not comment else made + end)
            moved[number] = len(lines)
    lines += [comment + end for comment in waiting.values()]
    return script._replace(lines=lines, parts=moved_parts(script, moved), end=script.end or "\n")


def comment_of(name: str, settings: Mapping[str, Any]) -> str:
    return f"⍝ view {name} {json.dumps(settings, ensure_ascii=False)}"


def moved_parts(script: Home, moved: Mapping[int, int]) -> Optional[Mapping[str, Any]]:
    """Returns the parts of a script whose lines have new numbers."""
    if script.parts is None:
        return None
    return {name: part._replace(numbers=[moved.get(number, 0) for number in part.numbers]) for name, part in script.parts.items()}

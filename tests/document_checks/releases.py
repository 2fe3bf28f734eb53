"""The version, and the documents that state it."""

from __future__ import annotations

import re

from .checks import Checks
from .texts import constants

VERSION, CHANGES = "share/sheet/version.py", "CHANGELOG.md"
KINDS = ["Added", "Changed", "Fixed"]
LONGEST = 100


class Releases(Checks):
    """CHANGELOG.md and the manual pages state the version of share/sheet/version.py."""

    def check_version(self) -> None:
        version = constants(self.files.texts[VERSION])["VERSION"]
        newest = re.search(r"^## (.*)$", self.files.texts[CHANGES], re.M)
        date = newest and re.fullmatch(rf"{re.escape(version)} - (\d{{4}}-\d\d-\d\d)", newest[1])
        self.want(date, f"{CHANGES}: its first release is not '{version} - YYYY-MM-DD'")
        for path, text in self.files.of(r"share/man/\w+\.1").items():
            wanted = f'"{date[1] if date else ""}" "aplsheet {version}"'
            self.want(f" 1 {wanted} " in text, f"{path}: it does not state {wanted}")

    def check_changes(self) -> None:
        """Each release has its changes under the kinds of KINDS, in this order."""
        text = self.files.texts[CHANGES]
        self.want(text.count("\n") <= LONGEST, f"{CHANGES}: it has more than {LONGEST} lines")
        for release in re.split(r"^## ", text, flags=re.M)[1:]:
            kinds = re.findall(r"^### (.*)$", release, re.M)
            self.want(kinds and kinds == [it for it in KINDS if it in kinds], f"{CHANGES}: a release has the kinds {kinds}")

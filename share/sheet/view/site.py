"""The paths of the server, and their answers.

  GET  /, /NAME             the files of the page
  POST /api/begin           the names with their first windows, the changes, the settings of panels, and the keys of the symbols
  POST /api/look            the answers to looks
  POST /api/line            answers a line, and the looks that it may have changed
  POST /api/edit            edits cells, all or none
  POST /api/lines           makes one change of several lines
  POST /api/rows            inserts or deletes rows of data
  POST /api/open            answers the lines of a script that the page has read
  POST /api/table           puts a table that the page has read under a name
  POST /api/sheets          the sheets of a workbook that the page has read, with their first rows
  POST /api/workbook        puts a block of such a sheet under a name
  POST /api/book            a workbook of the sheet, to be kept elsewhere
  POST /api/recover         goes on with a session that was not saved, or forgets it
  POST /api/stop            stops the line under way
  POST /api/settings        sets how a panel is shown, for all pages
  POST /api/whatif          begins a what-if, keeps its changes in the sheet, or gives it up
  POST /api/compare         the answers to looks in the sheet and in each what-if
  POST /api/text            the lines of the sheet, to be kept elsewhere
  POST /api/save            writes the file with which the server was started, and no other
  GET  /api/events?desk=N   events, as a stream

A page sends JSON with the number of its desk: 0 is the sheet, others are what-ifs. The bytes of a workbook are in base64.
"""

from __future__ import annotations

import os
from pathlib import Path
from typing import Any, Callable, Dict, List, Optional, Sequence

from .. import files, keys
from ..errors import Mistake
from ..files import Home
from ..lines import NAME
from ..scripts import script_of_sheet
from ..session import Session
from ..table_commands import columns_of
from ..tables import Table, table_in
from .books import Labelled, book_of, bytes_in, numerals_for, sheet_table, sheets_in
from .cells import cells_of, check_name
from .desk import Desk
from .leftovers import forget, go_on, left
from .looks import Look, Told
from .rows import Rows
from .settings import checked, settings_in, with_settings
from .whatifs import WhatIfs

Asked = Sequence[Dict[str, Any]]


def looks_of(asked: Asked) -> List[Look]:
    return [Look(**look) for look in asked]


class Site:
    """The sheet and its what-ifs, as pages use them.

    file      the path of the file that Save writes; None if there is none
    settings  how panels are shown
    left      the sessions that were not saved
    build     which program answers, in words
    """

    def __init__(self, session: Session, file: Optional[str], build: str) -> None:
        self.sheet, self.file, self.build = Desk(session), file and os.path.realpath(file), build
        self.what_ifs = WhatIfs(self.sheet)
        self.settings = settings_in(session.home.lines if session.home else ())
        self.left = left()

    @property
    def desks(self) -> List[Desk]:
        return [self.sheet, *(each.desk for each in [*self.what_ifs.all.values()])]

    def tell_all(self, event: Optional[Told]) -> None:
        for desk in self.desks:
            desk.tell(event)

    def state(self) -> Told:
        """Returns the state of all desks, of which a page hears nothing while it goes from one to another."""
        return {"settings": self.settings, "whatifs": self.what_ifs.told(), "left": self.left}

    def changed(self, told: Told) -> Told:
        """Tells all pages of what-ifs in which something changed, and returns the answer."""
        if self.what_ifs.all and "reached" in told:
            self.tell_all({"whatifs": self.what_ifs.told()})
        return told

    def begin(self, desk: int) -> Told:
        name = Path(self.file).name if self.file else None
        page: Told = {"file": name, "settings": self.settings, "build": self.build, "name": NAME}
        page["left"] = self.left
        page.update({"keys": keys.KEY.findall(keys.FILE.read_text("utf-8")), "whatifs": self.what_ifs.told()})
        return {**page, **self.what_ifs.desk(desk).begin()}

    def look(self, desk: int, looks: Asked) -> Told:
        return self.what_ifs.desk(desk).look(looks_of(looks))

    def line(self, desk: int, text: str, looks: Asked = ()) -> Told:
        return self.changed(self.what_ifs.desk(desk).take(text, looks_of(looks)))

    def edit(self, desk: int, name: str, cells: Sequence[Sequence[Any]], text: bool, looks: Asked = ()) -> Told:
        check_name(name)
        return self.changed(self.what_ifs.desk(desk).edit(name, cells_of(cells), text, looks_of(looks)))

    def lines(self, desk: int, title: str, lines: Sequence[str], looks: Asked = ()) -> Told:
        return self.changed(self.what_ifs.desk(desk).change(title, lines, looks_of(looks)))

    def open(self, desk: int, title: str, text: str) -> Told:
        self.settings.update(settings_in(text.splitlines()))
        return {**self.changed(self.what_ifs.desk(desk).open(title, text)), "settings": self.settings}

    def rows(self, desk: int, do: str, name: str, first: int, count: int, length: int, looks: Asked = ()) -> Told:
        check_name(name)
        rows = Rows(name, int(first), int(count), int(length))
        return self.changed(self.what_ifs.desk(desk).rows(rows, do, looks_of(looks)))

    def table(self, desk: int, title: str, text: str, header: bool, separator: str, **names: Any) -> Told:
        table = table_in(title, text.lstrip("\ufeff"), "\t" if separator == "tab" else separator, header)
        return self.put_table(desk, title, table, **names)

    def sheets(self, title: str, raw: str) -> Told:
        return {"sheets": sheets_in(title, bytes_in(raw))}

    def workbook(self, desk: int, title: str, raw: str, sheet: str, block: str, header: bool, **names: Any) -> Told:
        return self.put_table(desk, f"{title}: {sheet}", sheet_table(title, bytes_in(raw), sheet, block, header), **names)

    def put_table(self, desk: int, title: str, table: Table, name: str, labels: str = "", decimals: int = 0, columns: str = "") -> Told:
        """Puts some columns of a table under a name, and its first column under `labels`, if that is a name; all others without `columns`."""
        for each in filter(None, (name, labels)):
            check_name(each)
        wanted = columns_of(table, columns) if columns else [*range(2 if labels else 1, table.width + 1)]
        return self.changed(self.what_ifs.desk(desk).table(title, table, wanted, name, labels, numerals_for(table, wanted, decimals)))

    def book(self, desk: int, tables: Asked) -> Told:
        with self.what_ifs.desk(desk).work() as outcome:
            outcome.update(book_of(self.what_ifs.desk(desk).session, [Labelled(**table) for table in tables]))
        return outcome

    def recover(self, name: str, do: str) -> Told:
        """Goes on with a session that was not saved, or forgets it; all pages hear which ones are left."""
        with self.sheet.work() as outcome:
            if do == "go on":
                go_on(self.sheet.session, name)
                self.settings.update(settings_in(self.sheet.session.home.lines if self.sheet.session.home else ()))
                self.sheet.publish(outcome, [])
            elif do == "forget":
                forget(name)
            else:
                raise ValueError("go on, or forget")
        self.left = left()
        self.tell_all({"left": self.left})
        return {**outcome, "left": self.left, "settings": self.settings}

    def stop(self, desk: int) -> Told:
        self.what_ifs.desk(desk).stop()
        return {}

    def set(self, name: str, settings: Any) -> Told:
        self.settings = {**self.settings, name: checked(settings)}
        self.tell_all({"settings": self.settings})
        return {}

    def what_if(self, desk: int, do: str) -> Told:
        """Begins a what-if, keeps its changes in the sheet, or gives it up."""
        told: Told = {"desk": 0}
        if do == "begin":
            told = {"desk": self.what_ifs.begin()}
        elif do == "keep":
            told.update(self.what_ifs.keep(desk))
        elif do == "drop":
            self.what_ifs.drop(desk)
        else:
            raise ValueError("begin, keep or drop")
        self.tell_all({"whatifs": self.what_ifs.told()})
        return {**told, "whatifs": self.what_ifs.told()}

    def compare(self, looks: Asked) -> Told:
        return {"compared": self.what_ifs.compared(looks_of(looks))}

    def text(self, desk: int) -> Told:
        with self.what_ifs.desk(desk).work() as outcome:
            outcome["text"] = self.script(self.what_ifs.desk(desk).session).raw.decode("utf-8", "replace")
        return outcome

    def script(self, session: Session) -> Home:
        """Returns the script that makes a sheet, with the settings of its panels."""
        script = script_of_sheet(session.program, session.journal, session.home)
        return with_settings(script, self.settings, session.journal.bindings)

    def save(self, replace: bool = False) -> Told:
        """Writes the file of the server; reports that someone else changed it, unless it may be replaced."""
        if not self.file:
            raise Mistake("the sheet comes from no file: begin it as sheet --web FILE, or download it")
        with self.sheet.work() as outcome:
            session = self.sheet.session
            if not replace and self.is_foreign(session.home):
                outcome.update({"error": "NOT SAVED", "replace": True})
                outcome["notes"] = [f"{Path(self.file).name} was changed by someone else; the file that is there would be kept as FILE~"]
                return outcome
            script = self.script(session)
            path, digest = files.save(self.file, script.raw, session.home, replace)
            session.come_home(script._replace(path=path, digest=digest))
            outcome["history"] = self.sheet.history()
        if "history" in outcome:
            self.sheet.tell({"history": outcome["history"]})
        return outcome

    def is_foreign(self, home: Optional[Home]) -> bool:
        """Returns whether the file on the disk is another one than the sheet was loaded from or saved to."""
        try:
            raw = Path(self.file or "").read_bytes()
        except FileNotFoundError:
            return False
        except OSError as error:
            raise Mistake(f"{self.file} cannot be read: {files.reason(error)}") from None
        return home is None or home.path != self.file or home.digest != files.digest_of(raw)

    def end(self) -> None:
        """Ends all desks, and the programs of what-ifs; the session of the sheet is the caller's."""
        for number in [*self.what_ifs.all]:
            self.what_ifs.drop(number)
        self.sheet.end()


PATHS: Dict[str, Callable[..., Told]] = {
    "/api/begin": Site.begin,
    "/api/look": Site.look,
    "/api/line": Site.line,
    "/api/edit": Site.edit,
    "/api/lines": Site.lines,
    "/api/rows": Site.rows,
    "/api/open": Site.open,
    "/api/table": Site.table,
    "/api/sheets": Site.sheets,
    "/api/workbook": Site.workbook,
    "/api/book": Site.book,
    "/api/recover": Site.recover,
    "/api/stop": Site.stop,
    "/api/settings": Site.set,
    "/api/whatif": Site.what_if,
    "/api/compare": Site.compare,
    "/api/text": Site.text,
    "/api/save": Site.save,
}

"""The sheet in a browser: a server for this machine alone, whose page shows each name as a table, a plot or a number.

Every value on the page is an answer of the program. The files of the page are in share/sheet/page.

  serving   the server: requests, answers and events
  guard     which requests are answered
  site      the paths of the server, and their answers
  desk      a session that several pages use, one line at a time, with a version for each change
  looks     questions of a page about an expression: a window of its items, a plot, or its form
  axes      the names to which the axes of a formula's result belong
  cells     edits of cells, with the items that the page showed; many cells as one array
  rows      rows of data are inserted or deleted
  books     workbooks: a sheet of one is read, and one is made
  leftovers sessions that were not saved
  settings  how panels are shown, kept as comments of the script
  whatifs   what-ifs: copies of the sheet in which changes are tried
  running   a server that begins and ends with a session
  copying   the lines of a copy of a sheet
  opening   the browser is opened through a file that only its owner can read
"""

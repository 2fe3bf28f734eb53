"""The front end of aplsheet for interactive use. It passes every line to the program, and computes nothing itself.

  lines       kinds of lines, by their text
  program     the program over pipes, and how many lines of output each answer has
  answers     values, errors and refusals, and how they differ
  journal     the changes that were accepted, and the bindings of names by them
  session     a sheet in use: lines go in, answers come out; undo, redo, and a program that dies
  recovery    the log of a session, by which one that was not saved goes on
  commands    the forms of the lines that begin with ]; each NAME_commands has the commands of one subject
  tables      tables in files
  workbooks   tables in sheets of workbooks
  cells       cells of workbooks as fields of tables
  numerals    fields as whole numbers: decimals, thousands, empty fields
  dates       dates as numbers of days
  units       how many decimals a name has, as a comment says
  arrays      arrays as lines
  storing     the array of a name
  scripts     the lines by which a sheet is saved
  files       files: a write replaces a file whole or not at all
  notes       notes beside an error: absent names, cycles, shapes, and a hint for a usual slip
  places      where in a line an error stands
  expressions the parts of an expression
  explaining  why a name shows its value
  slips       the usual slips, by the text of a line
  watching    names that are shown again after changes
  manual      the manual's own text about a symbol, an error or a line
  terminal    line editing, history and completion
  pager       values beyond the screen
  progress    how much of a long task is done
  interrupts  the signals that stop a line or end the session
  version     the version of aplsheet
  view        the sheet in a browser: a package, whose first file names its modules
  starting    the words of bin/sheet
"""

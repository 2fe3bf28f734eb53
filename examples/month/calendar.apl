⍝ Continues month.apl: the calendar of a workbook, beside the pieces of each day. It needs openpyxl.
]table DAY calendar.xlsx --sheet Kalender --header --columns Datum --dates DD.MM.YYYY
]table HOURS calendar.xlsx --sheet Kalender --header --columns Stunden --decimals 2
]table MACHINES calendar.xlsx --sheet Schichten --range B2:B3
WORKED←(,HOURS>0)/,HOURS ⍝ in units of 0.01
ROOM←(WORKED×5000×+/,MACHINES)÷100 ⍝ a machine packs 5,000 pieces an hour
PLAN←⍉3 22⍴PIECES,ROOM,ROOM-PIECES
PLAN_ROWS←PIECES_ROWS
)DATA PLAN_COLUMNS←3 6⍴'piecesroom  left  '
]print PLAN --rows PLAN_ROWS --titles PLAN_COLUMNS

⍝ The days on which the machines are not enough:
FULL←(PIECES>ROOM)/(,HOURS>0)/,DAY
]print FULL --dates DD.MM.YYYY

⍝ The report as a workbook: a sheet for each name, with its labels, and one for the formulas.
]export report.xlsx TURNOVER RANKED PLAN --replace

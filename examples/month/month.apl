⍝ March 2026 of a wholesaler of lamps. make_orders.py writes orders.csv, 50,000 lines as a German spreadsheet saves them.
⍝ The turnover of each customer with each item, and its totals:
]pivot TURNOVER orders.csv --rows Kunde --columns Artikel --sum Betrag --decimals 2 --thousands --encoding cp1252
]print TURNOVER --rows TURNOVER_ROWS --titles TURNOVER_COLUMNS --comma
BY_ITEM←+⌿TURNOVER ⍝ in units of 0.01
]print BY_ITEM --titles TURNOVER_COLUMNS --comma

⍝ The customers by their turnover, the greatest first:
BY_CUSTOMER←+/TURNOVER ⍝ in units of 0.01
]sort PLACE BY_CUSTOMER --down
RANKED←((⍴PLACE),1)⍴BY_CUSTOMER[PLACE] ⍝ in units of 0.01
RANKED_ROWS←TURNOVER_ROWS[PLACE;]
]print RANKED --rows RANKED_ROWS --comma

⍝ The pieces of each day, and the days of the most and the fewest:
]pivot PIECES orders.csv --rows Datum --sum Menge --sorted --thousands --encoding cp1252
+/PIECES
((PIECES=⌈/PIECES)∨PIECES=⌊/PIECES)⌿PIECES_ROWS

⍝ aplsheet table ORDERS orders.csv orders.apl --header
⍝ A week's orders, saved by a spreadsheet: a row for each product, a column for each day. The first line has the call of this sheet.
)DATA PRICE←3 7 45             ⍝ euros a piece, for each product
PIECES←+/ORDERS                ⍝ a total for each product
DAY←+⌿ORDERS                   ⍝ a total for each day
VALUE←PRICE+.×ORDERS           ⍝ euros a day
ORDERS
PIECES
DAY
VALUE
)ROW ORDERS 8 8 10 9 12        ⍝ a fourth product comes in,
VALUE                          ⍝ which has no price yet
)ROW PRICE 20
VALUE
ORDERS[3;2]←6                  ⍝ a late order
TOTALS←(ORDERS,PIECES)⍪DAY,+/DAY
TOTALS
)CSV TOTALS                    ⍝ the table with its totals, for the spreadsheet

⍝ A week's demand for four products, with its hours and its value.
⍝ The order is bolts, nuts, washers, plates.
)DATA DEMAND←1200 3400 5000 250      ⍝ pieces ordered
)DATA RATE←60 120 200 15             ⍝ pieces an hour
)DATA PRICE←7 3 1 45                 ⍝ cents a piece
)DATA LOT←500 500 500 300            ⍝ the smallest lot worth a set-up
)DATA LIMIT←2000 3000 6000 400       ⍝ the most that the store holds
MAKE←LIMIT⌊LOT⌈DEMAND                ⍝ not below the lot, not above the limit
MISSING←0⌈DEMAND-MAKE
HOURS←(MAKE+RATE|-MAKE)÷RATE         ⍝ each started hour counts
VALUE←MAKE×PRICE
MAKE
MISSING
HOURS
VALUE
DEMAND[4]←385                        ⍝ a late order for plates
LIMIT[2]←3500                        ⍝ another shelf for nuts
MAKE
MISSING
HOURS
VALUE÷100                            ⍝ an error: one value is not whole euros
(VALUE-100|VALUE)÷100                ⍝ whole euros, the cents left out
PRICE[1]←'x'                         ⍝ refused, and nothing has changed
PRICE

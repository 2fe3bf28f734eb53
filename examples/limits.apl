⍝ Four articles: their stock beside the least and the greatest stock, and the orders.
)DATA STOCK←40 310 0 95
)DATA LEAST←100 300 50 80
)DATA GREATEST←400 600 60 120
)DATA PACK←48 100 25 12              ⍝ pieces in a pack; never 0, as 0÷0 is 1
LOW←STOCK<LEAST
SHORTAGE←0⌈LEAST-STOCK
ROOM←0⌈GREATEST-STOCK
NEED←(SHORTAGE+PACK|-SHORTAGE)÷PACK  ⍝ packs for the shortage, rounded up
FIT←(ROOM-PACK|ROOM)÷PACK            ⍝ packs that fit the shelf, rounded down
ORDER←PACK×NEED⌊FIT
AFTER←STOCK+ORDER
LOW
SHORTAGE
NEED
ORDER
(AFTER≥LEAST)∧AFTER≤GREATEST         ⍝ is each within its limits then?
STOCK[4]←20                          ⍝ a large delivery went out
PACK[3]←40                           ⍝ a larger pack of the third
ORDER
AFTER
(AFTER≥LEAST)∧AFTER≤GREATEST         ⍝ one pack of the third is too few, two are too many

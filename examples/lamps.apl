)DATA DEMAND←3 4⍴120 80 40 95 30 30 45 20 75 60 60 90
DEMAND                            ⍝ lamps asked for: a row a product, a column a week
TOTAL←+/DEMAND                    ⍝ a formula; +/ adds up each row
)DATA PRICE←30 55 12              ⍝ euros a piece
INCOME←PRICE×TOTAL
SUM←+/INCOME
INCOME
DEMAND[2;3]←60                    ⍝ an edit of one cell
INCOME
)COST                             ⍝ it reached one item of TOTAL, one of INCOME, and SUM
)ROW DEMAND 40 0 30 10            ⍝ a fourth product, which has no price yet
SUM
)ROW PRICE 8
SUM

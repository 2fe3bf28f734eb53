⍝ Six weeks of a joiner's workshop: the demand, its hours and their cost.
⍝ Demand in pieces: a row for each product (tables, chairs, shelves), a column for each week.
)DATA DEMAND←3 6⍴10 14 0 20 16 6 60 45 0 80 75 80 25 25 15 30 30 10
)DATA STOCK←60 200 55                ⍝ pieces in the store at the beginning
)DATA DAYS←5 4 0 5 5 4               ⍝ the calendar: working days of each week
)DATA MINUTES←3 2⍴60 120 10 30 20 20 ⍝ minutes of a piece at the saw and at the bench
)DATA MACHINES←1 2                   ⍝ the number of saws and benches
)DATA WAGE←30 24                     ⍝ euros an hour at each
PRODUCT←+/DEMAND                     ⍝ a total for each product
WEEK←+⌿DEMAND                        ⍝ a total for each week
RUNNING←+\DEMAND                     ⍝ demand by the end of each week
LASTS←+/RUNNING≤STOCK∘.×(⍴WEEK)⍴1    ⍝ the number of weeks that the stock lasts
OPEN←(DAYS>0)/⍳⍴DAYS                 ⍝ the working weeks
WORKED←(DAYS>0)/DEMAND               ⍝ and their demand
LOAD←(⍉MINUTES)+.×DEMAND             ⍝ minutes: a row for the saw, a row for the benches
HOURS←(LOAD+60|-LOAD)÷60             ⍝ each started hour counts
ROOM←(8×MACHINES)∘.×DAYS             ⍝ the hours available, at 8 a day
LATE←(∨⌿HOURS>ROOM)/⍳⍴WEEK           ⍝ the weeks without enough hours
COST←WAGE+.×HOURS                    ⍝ euros a week
PRODUCT
WEEK
RUNNING
LASTS
OPEN
WORKED
⌈/WEEK                               ⍝ the greatest demand of a week
HOURS
ROOM
LATE
COST
+\COST                               ⍝ the cost by the end of each week
WAGE∘.×100 125 200                   ⍝ cents an hour: by day, in the evening, on a Sunday
DAYS[3]←5                            ⍝ the third week becomes a working week,
DEMAND[1;4]←12                       ⍝ and some tables of the fourth
DEMAND[1;3]←8                        ⍝ are made in it
RUNNING
HOURS
LATE
COST
)DATA DAYS←DAYS,5                    ⍝ a seventh week in the calendar, but no demand for it yet
LATE
COST
)DATA DEMAND←DEMAND,4 30 0           ⍝ one more column
LATE
COST
LASTS
COST÷WEEK                            ⍝ an error: euros a piece are not whole
PRODUCT[1]←0                         ⍝ refused: a total is no data

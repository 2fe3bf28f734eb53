⍝ A workshop's week, Monday to Sunday: 1 is yes, 0 is no.
)DATA WORKDAY←1 1 1 1 1 1 0
)DATA HOLIDAY←0 0 0 1 0 0 0
)DATA SERVICE←0 1 0 0 0 0 0          ⍝ maintenance takes half a shift
)DATA SHIFTS←2 2 2 2 2 1 1
OPEN←WORKDAY∧~HOLIDAY
SHORT←OPEN∧SERVICE∨SHIFTS=1          ⍝ open, but for less than two whole shifts
HOURS←OPEN×(8×SHIFTS)-4×SERVICE
)DATA ORDERS←14 14 14 0 18 6 0       ⍝ promised hours of work
LATE←ORDERS>HOURS
FREE←0⌈HOURS-ORDERS
OPEN
SHORT
HOURS
LATE
FREE
HOLIDAY[4]←0                         ⍝ the holiday was last week
SERVICE[2]←0
SERVICE[4]←1                         ⍝ so the service moves to Thursday
HOURS
LATE
WORKDAY≠OPEN                         ⍝ the closed workdays: none now
SHIFTS[8]←1                          ⍝ a week has seven days

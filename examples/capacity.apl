⍝ aplsheet table NEED capacity.csv capacity.apl --header
⍝ Is there enough capacity? The hours needed: a row for each machine, a column for each week.
)DATA MACHINE←4 5⍴'saw  lathemill drill'   ⍝ a name in each row, padded with blanks
)DATA COUNT←2 1 2 1                  ⍝ the number of machines of each kind
)DATA DAYS←5 5 3 5 5                 ⍝ working days of each week
ROOM←8×COUNT∘.×DAYS                  ⍝ the hours available: 8 a day
FREE←ROOM-NEED                       ⍝ below 0: not enough hours
LATE←(∨⌿FREE<0)/⍳⍴DAYS               ⍝ the weeks with too much work for some machine
TIGHT←(∨/FREE<0)⌿MACHINE             ⍝ these machines
FREE
LATE
TIGHT
)DATA LIST←2 5⍴'lathedrill'          ⍝ the machines in question
MATCH←MACHINE∧.=⍉LIST                ⍝ a row for each machine, a column for each name: 1 for equal names
MATCH
ASKED←∨/MATCH                        ⍝ 1 for a machine in the list
ASKED⌿FREE                           ⍝ only their rows
+⌿ASKED⌿FREE                         ⍝ their free hours together
(~ASKED)⌿MACHINE                     ⍝ all others
ORDERED←FREE[(⍳⍴COUNT)+.×MATCH;]     ⍝ the rows in the order of the list
ORDERED
)ROW LIST 'plane'
ORDERED                              ⍝ an error: no machine has this name
(~∨⌿MATCH)⌿LIST                      ⍝ the names in the list without a machine
)DATA LIST←(2 5↑LIST)⍪'saw  '        ⍝ it should have been saw
ORDERED
COUNT[2]←2                           ⍝ what if there were two lathes?
)COST                                ⍝ the items of results that may have changed
LATE
TIGHT

⍝ aplsheet table MOVES stock.csv stock.apl --header
⍝ A store, day by day: arrivals, and departures with a minus. A row for each day, a column for each article.
)DATA ARTICLE←3 6⍴'bolts nuts  plates'
)DATA START←100 150 60               ⍝ pieces in the store at the beginning
)DATA LEAST←60 80 30                 ⍝ the least stock wanted
)DATA PACK←50 100 25                 ⍝ pieces in a pack
EVENING←1 0↓+⍀START⍪MOVES            ⍝ pieces on each evening: a row for each day
NOW←START++⌿MOVES                    ⍝ pieces after the last day
SHORT←0⌈LEAST-NOW                    ⍝ the missing pieces of each article
ORDER←SHORT+PACK|-SHORT              ⍝ the same in whole packs
MOVES
EVENING
SHORT
)ROW MOVES ¯20 ¯150 10               ⍝ the fourth day: one line, and all follows
NOW
(SHORT>0)⌿ARTICLE                    ⍝ the articles with too little stock
ORDER
)ROW MOVES 0 0 ¯25                   ⍝ the fifth
NOW
(SHORT>0)⌿ARTICLE
ORDER
EVENING
⌊⌿EVENING                            ⍝ the least stock of each over all evenings
DAYS←⍳1↑⍴EVENING                     ⍝ the days by number
(∨/EVENING<(⍴EVENING)⍴LEAST)/DAYS    ⍝ the days with too little of some article
)ROW MOVES 100 0                     ⍝ refused: a day has a number for each article
MOVES[4;2]←¯50                       ⍝ a correction of the fourth day
(SHORT>0)⌿ARTICLE
)CSV EVENING                         ⍝ for the spreadsheet

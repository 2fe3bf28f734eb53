⍝ A week's jobs: the working days, the cost of each job, and the time of each.
)DATA OPEN←1 1 1 0 1 1 0             ⍝ Monday to Sunday: 1 is yes, 0 is no
DAYS←OPEN/⍳⍴OPEN                     ⍝ the working days by number
NAMES←OPEN⌿7 2⍴'MoTuWeThFrSaSu'      ⍝ and by name, one in each row
)DATA MACHINES←'DLMS'                ⍝ drill, lathe, mill, saw
)DATA RATES←45 60 75 30              ⍝ euros an hour
)DATA JOBS←'LMLSD'                   ⍝ the machine of each job
)DATA SECONDS←5400 8130 3600 725 9000
PLACES←MACHINES⍳JOBS
RATE←(RATES,0)[PLACES]               ⍝ 0 if the machine is not in the list
PRICE←RATE×SECONDS
COST←(PRICE+3600|-PRICE)÷3600        ⍝ euros, rounded up
TIME←⍉24 60 60⊤SECONDS               ⍝ a row for each job: hours, minutes, seconds
LONG←(SECONDS>5000)/⍳⍴SECONDS
DAYS
NAMES
PLACES
COST
1⊥COST                               ⍝ the radix 1 adds the digits
TIME
0 60 60⊤1⊥SECONDS
JOBS[LONG]
(JOBS∊'LM')/COST
OPEN[4]←1                            ⍝ Thursday becomes a working day
DAYS
JOBS[4]←'X'                          ⍝ a code that no machine has
(~JOBS∊MACHINES)/JOBS
COST
RATES[PLACES]                        ⍝ without the 0 after the rates

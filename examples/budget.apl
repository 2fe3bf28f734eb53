⍝ aplsheet table BUDGET budget.csv budget.apl --header
⍝ The budgets of four departments for six months, in thousands of euros: a row for each department, a column for each month.
)DATA NAME←4 9⍴'workshop purchasessales    office   '  ⍝ the file has only numbers
)DATA LIMIT←2600 1000 900 400        ⍝ for the half year
MONTH←+⌿BUDGET                       ⍝ a total for each month
TOTAL←+/BUDGET                       ⍝ a total for each department
ALL←+/TOTAL                          ⍝ the grand total, equal to +/MONTH
SOFAR←+\MONTH                        ⍝ spent by the end of each month
QUARTER←+/((⍴TOTAL),2 3)⍴BUDGET      ⍝ a column for each quarter
HALVES←ALL+200×TOTAL                 ⍝ two lines for the share in percent, rounded:
SHARE←(HALVES-(2×ALL)|HALVES)÷2×ALL  ⍝ see "Recipes" in the manual
LEFT←LIMIT-TOTAL
OVER←(LEFT<0)⌿NAME                   ⍝ the departments above their limits
TABLE←BUDGET,TOTAL                   ⍝ the totals of departments after their rows,
REPORT←TABLE⍪+⌿TABLE                 ⍝ and the totals of months below, with the grand total
BUDGET
TOTAL
MONTH
ALL=+/MONTH                          ⍝ the same in both ways: 1 is yes
SOFAR
QUARTER
SHARE
LEFT
OVER
BUDGET[2;4]←260                      ⍝ purchases cost more in April,
LIMIT[2]←1100                        ⍝ so their limit rises
ALL
LEFT
OVER
(SOFAR>4000)/⍳⍴SOFAR                 ⍝ the months after which more than 4 million are spent
)ROW BUDGET 30 30 30 30 30 30        ⍝ a fifth department
LEFT                                 ⍝ an error: it has no limit yet
)ROW LIMIT 200
)ROW NAME 'training '
LEFT
)CSV REPORT                          ⍝ for the spreadsheet

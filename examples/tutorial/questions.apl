LOAD←6 20 4+.×DEMAND
HOURS←(LOAD+60|-LOAD)÷60
+/DEMAND                          ⍝ a total for each product
HOURS                             ⍝ the hours of each week
TABLE←DEMAND⍪HOURS
)CSV TABLE

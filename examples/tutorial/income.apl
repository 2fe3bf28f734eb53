]labels ITEM examples/tutorial/prices.csv product --header
]table PRICE examples/tutorial/prices.csv --header --columns price --decimals 2
]table SOLD examples/tutorial/prices.csv --header --columns sold --thousands
INCOME←PRICE×SOLD       ⍝ in units of 0.01
REPORT←PRICE,INCOME     ⍝ in units of 0.01
)DATA HEAD←2 6⍴'price income'
]print REPORT --rows ITEM --titles HEAD
TOTAL←+/,INCOME         ⍝ in units of 0.01
]print TOTAL

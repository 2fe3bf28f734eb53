]pivot SALES examples/tutorial/orders.csv --rows customer --columns month --sum amount --decimals 2
]print SALES --rows SALES_ROWS --titles SALES_COLUMNS --comma

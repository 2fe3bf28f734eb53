⍝ The year, the month and the day of days as spreadsheets count them, from 1 March 1900 to 28 February 2100
)DATA D←46023 45716 45717 61    ⍝ 1 January 2026, 28 February and 1 March 2025, 1 March 1900
Z←D-61                          ⍝ years begin in March, so that a leap day comes last
A←3+4×Z
Y←(A-1461|A)÷1461
B←1461×Y
N←Z-(B-4|B)÷4                   ⍝ the day of such a year
C←2+5×N
M←(C-153|C)÷153                 ⍝ its month: five months have 153 days
E←2+153×M
YEAR←1900+Y+M≥10
MONTH←1+12|M+2
DAY←1+N-(E-5|E)÷5
YEAR
MONTH
DAY

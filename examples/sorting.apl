⍝ Names in the order of ages. Equal ages stay in their order.
NAMES←4 5⍴'MARY PETERANNE JOHN '
AGES←41 17 29 17
NAMES[⍋AGES;]
AGES[⍒AGES]
(17=AGES)/⍳⍴AGES

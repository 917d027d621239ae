⍝ Places counted from 0, and from 1 again.
)ORIGIN 0
⍳5
'ABC'[0 2]
⍋30 10 20
2 2 2 2⊤11
2⊥1 0 1 1
)ORIGIN 1
⍋30 10 20

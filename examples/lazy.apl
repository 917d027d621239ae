⍝ Of long expressions only what is asked for is computed.
3↑2×⍳1000000000000
¯2↑⌽2-⍳1000000000
2 2↑(⍳1000000)∘.×⍳1000000
+/5↑(⍳1000000000)×⍳1000000000

⍝ Names share cells; a write to one is not seen by the others.
A←⍳5
B←⌽A
C←A
A[2]←99
A
B
C
⍝ What stands on the right is evaluated before the write.
(A[1]←50)+A×2
A

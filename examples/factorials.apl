⍝ Factorials by recursion. Beyond 10 to the power 36 numbers end.
∇Z←FACTORIAL N
Z←1
→(N=0)/0
Z←N×FACTORIAL N-1
∇
FACTORIAL 5
FACTORIAL 32
FACTORIAL 33
!5

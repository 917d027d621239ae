⍝ The money of three customers. MOVE takes who pays, who is paid, and how much.
MONEY←100 250 40
∇MOVE X
→(X[3]≤MONEY[X[1]])/GOOD
'NOT ENOUGH MONEY'
→0
GOOD:MONEY[X[1]]←MONEY[X[1]]-X[3]
MONEY[X[2]]←MONEY[X[2]]+X[3]
∇
MOVE 2 1 50
MONEY
MOVE 3 1 70
MOVE 1 3 30
MONEY
+/MONEY
)FNS
)VARS

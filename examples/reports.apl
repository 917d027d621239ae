⍝ Each report once. The script goes on after it, and the status is 1.
NOTHING+1
1 2+1 2 3
(2 2⍴1)+1 2
1 2 3[4]
1÷0
⍳1099511627777
∇DEEPER
DEEPER
∇
DEEPER
'THE END'

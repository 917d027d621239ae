⍝ Powers of a matrix, whose cells are the numbers of Fibonacci.
∇R←A POWER N
R←2 2⍴1 0 0 1
AGAIN:→(N=0)/0
R←R+.×A
N←N-1
→AGAIN
∇
A←2 2⍴1 1 1 0
A POWER 10
(A POWER 90)[1;2]
⍝ A table of products, and a matrix turned over.
(⍳3)∘.×⍳4
⍉2 3⍴⍳6

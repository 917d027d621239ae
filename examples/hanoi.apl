⍝ The towers of Hanoi: N discs go from the first of three pegs to the second.
∇N HANOI P
→(N=0)/0
(N-1)HANOI P[1 3 2]
P[1 2]
(N-1)HANOI P[3 2 1]
∇
3 HANOI 1 3 2

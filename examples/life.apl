⍝ Life on a torus: a cell lives on with two or three neighbours, and comes with three.
∇Z←LIFE G;N
N←(1⌽G)+(¯1⌽G)+(1⊖G)+(¯1⊖G)+(1⌽1⊖G)+(1⌽¯1⊖G)+(¯1⌽1⊖G)+¯1⌽¯1⊖G
Z←(N=3)∨G∧N=2
∇
G←5 5⍴0
G[3;2 3 4]←1
LIFE G
∧/,G=LIFE LIFE G

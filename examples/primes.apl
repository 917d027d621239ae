⍝ The primes up to N, by a sieve: of the numbers left, those go that the next prime divides.
∇P←PRIMES N;K
P←1↓⍳N
K←1
NEXT:→(N<P[K]×P[K])/0
P←(~(P≠P[K])∧0=P[K]|P)/P
K←K+1
→NEXT
∇
PRIMES 50
⍴PRIMES 1000

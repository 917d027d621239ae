⍝ Each letter goes K places on in the alphabet.
LETTERS←'ABCDEFGHIJKLMNOPQRSTUVWXYZ'
∇R←K CAESAR TEXT
R←LETTERS[1+26|K+¯1+LETTERS⍳TEXT]
∇
3 CAESAR 'HELLO'
¯3 CAESAR 3 CAESAR 'HELLO'
⍝ The vowels of a text, its words, and the text backwards.
TEXT←'THE QUICK BROWN FOX'
(TEXT∈'AEIOU')/TEXT
1++/TEXT=' '
⌽TEXT

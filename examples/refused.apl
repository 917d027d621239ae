⍝ A script that can't be read is not run at all: nothing of it is printed but where it stops.
'NEVER SEEN'
A←(1+2

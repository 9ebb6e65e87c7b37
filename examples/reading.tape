nodes 1
copies 1 1
buckets 1
user alice tanstaaf
user bob open sesame
postmaster alice
go
open smtp 1
say 1 HELO c.example
say 1 MAIL FROM:<bob@b.example>
say 1 RCPT TO:<alice>
say 1 RCPT TO:<postmaster>
say 1 DATA
say 1 Subject: hi
say 1
say 1 ..a line that begins with a period
say 1 .
feed 1 4d41494c2046524f4d3a3c3e0d0a52435054
feed 1 20544f3a3c626f623e0d0a444154410d0a78
feed 1 0a2e0a790d0a2e0d0a515549540d0a
open pop 1
say 2 USER Alice
say 2 PASS tanstaaf
say 2 STAT
say 2 UIDL
say 2 RETR 1
say 2 QUIT
open pop 1
say 3 USER bob
say 3 PASS open  sesame
say 3 USER bob
say 3 PASS open sesame
say 3 LIST
say 3 RETR 1
close 3
end

nodes 4
copies 1 1
buckets 1
user alice tanstaaf
postmaster alice
go
open smtp 1
say 1 HELO c.example
say 1 MAIL FROM:<bob@b.example>
say 1 RCPT TO:<alice>
say 1 DATA
say 1 one
say 1 .
say 1 QUIT
open smtp 2
say 2 HELO c.example
say 2 MAIL FROM:<bob@b.example>
say 2 RCPT TO:<alice>
say 2 DATA
say 2 two
say 2 .
say 2 QUIT
open smtp 3
say 3 HELO c.example
say 3 MAIL FROM:<bob@b.example>
say 3 RCPT TO:<alice>
say 3 DATA
say 3 three
say 3 .
say 3 QUIT
settle
maps alice
open pop 4
say 4 USER alice
say 4 PASS tanstaaf
flow
say 4 STAT
say 4 UIDL
say 4 RETR 2
flow
open pop 2
say 5 USER alice
say 5 PASS tanstaaf
flow
say 5 QUIT
say 4 RETR 1
giveup 4
say 4 DELE 3
say 4 QUIT
flow
open pop 3
say 6 USER alice
say 6 PASS tanstaaf
flow
say 6 LIST
say 6 QUIT
end

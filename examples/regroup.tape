nodes 4
copies 2 2
buckets 16
user alice tanstaaf
postmaster alice
go
lose 3
lose 4
open smtp 2
say 1 HELO c.example
say 1 MAIL FROM:<bob@b.example>
say 1 RCPT TO:<alice>
say 1 DATA
say 1 one
say 1 .
flow
regroup 1
say 1 MAIL FROM:<bob@b.example>
say 1 RCPT TO:<alice>
say 1 DATA
say 1 two
say 1 .
flow
crash 2
start 2
open smtp 2
say 2 HELO c.example
say 2 MAIL FROM:<bob@b.example>
say 2 RCPT TO:<alice>
say 2 DATA
say 2 three
say 2 .
group 2
flow
conclude 2
flow
say 2 MAIL FROM:<bob@b.example>
say 2 RCPT TO:<alice>
say 2 DATA
say 2 three
say 2 .
flow
say 2 QUIT
end

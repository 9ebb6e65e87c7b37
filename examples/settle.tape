nodes 3
copies 2 1
buckets 1
user alice tanstaaf
user carol open sesame
postmaster alice
go
open smtp 1
say 1 HELO c.example
say 1 MAIL FROM:<bob@b.example>
say 1 RCPT TO:<alice>
say 1 DATA
say 1 one
say 1 .
drop 1
maps alice
push 1
flow
maps alice
report 2
flow
maps alice
maps carol
lose 1
settle
maps alice
regroup 2
maps alice
settle
maps alice
open smtp 3
say 2 HELO c.example
say 2 MAIL FROM:<bob@b.example>
say 2 RCPT TO:<alice>
say 2 RCPT TO:<carol>
say 2 DATA
say 2 two
say 2 .
settle
maps alice
maps carol
end

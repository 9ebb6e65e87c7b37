nodes 3
copies 3 2
buckets 16
user alice tanstaaf
postmaster alice
go
open smtp 1
say 1 HELO c.example
say 1 MAIL FROM:<bob@b.example>
say 1 RCPT TO:<alice>
say 1 DATA
say 1 Subject: hi
say 1
say 1 hello
say 1 .
drop 2
post 1
post 3
say 1 QUIT
lose 2
push 1
post 4
post 5
flow
crash 1
start 1
regroup 1
open smtp 3
say 2 HELO d.example
say 2 MAIL FROM:<carol@d.example>
say 2 RCPT TO:<alice>
say 2 DATA
say 2 hello again
say 2 .
flow
say 2 QUIT
end

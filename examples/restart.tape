nodes 1
copies 1 1
buckets 1
user alice tanstaaf
postmaster alice
go
open smtp 1
say 1 HELO c.example
say 1 MAIL FROM:<bob@b.example>
say 1 RCPT TO:<alice>
say 1 DATA
say 1 Subject: hi
say 1
say 1 hello
say 1 .
say 1 MAIL FROM:<bob@b.example>
crash 1
start 1
regroup 1
open pop 1
say 2 USER alice
say 2 PASS tanstaaf
say 2 LIST
say 2 RETR 1
say 2 DELE 1
crash 1
start 1
regroup 1
open pop 1
say 3 USER alice
say 3 PASS tanstaaf
say 3 UIDL
say 3 DELE 1
say 3 QUIT
crash 1
start 1
regroup 1
open smtp 1
say 4 HELO c.example
say 4 MAIL FROM:<bob@b.example>
say 4 RCPT TO:<alice>
say 4 DATA
say 4 again
say 4 .
say 4 QUIT
open pop 1
say 5 USER alice
say 5 PASS tanstaaf
say 5 UIDL
say 5 QUIT
end

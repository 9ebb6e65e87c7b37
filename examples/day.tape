nodes 1
copies 1 1
buckets 16
user alice tanstaaf
user bob open sesame
postmaster alice
go
open smtp 1
say 1 HELO mail.example
say 1 MAIL FROM:<carol@mail.example>
say 1 RCPT TO:<alice>
say 1 RCPT TO:<bob>
say 1 DATA
say 1 Subject: lunch
say 1
say 1 At noon?
say 1 .
say 1 MAIL FROM:<list@mail.example>
say 1 RCPT TO:<alice>
say 1 DATA
say 1 Subject: this week
say 1
say 1 Nothing new.
say 1 .
open pop 1
say 2 USER alice
say 2 PASS tanstaaf
say 2 LIST
say 2 RETR 1
say 2 DELE 1
close 2
open pop 1
say 3 USER alice
say 3 PASS tanstaaf
say 3 UIDL
say 3 DELE 1
say 3 LIST
say 3 RETR 1
say 1 MAIL FROM:<bob@mail.example>
say 1 RCPT TO:<alice>
say 1 DATA
say 1 Yes.
say 1 .
say 3 STAT
open pop 1
say 4 USER alice
say 4 PASS tanstaaf
say 3 QUIT
say 4 USER alice
say 4 PASS tanstaaf
say 4 RETR 2
say 4 QUIT
open pop 1
say 5 USER alice
say 5 PASS tanstaaf
say 5 UIDL
say 5 QUIT
open pop 1
say 6 USER bob
say 6 PASS open sesame
say 6 RETR 1
say 6 QUIT
say 1 QUIT
end

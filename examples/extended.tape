nodes 1
copies 1 1
buckets 1
user alice tanstaaf
postmaster alice
go
open smtp 1
say 1 EHLO c.example
say 1 MAIL FROM:<bob@b.example> SIZE=33 BODY=8BITMIME
say 1 RCPT TO:<alice>
say 1 DATA
say 1 Subject: notes
say 1
say 1 first
say 1 second
say 1 .
say 1 NOOP
say 1 QUIT
open pop 1
say 2 CAPA
say 2 APOP alice c74ecdd9484c34e50e708ce3f1a6114f
say 2 APOP alice 53469115d388082c0489dbf8319aa86f
say 2 TOP 1 1
say 2 DELE 1
say 2 RSET
say 2 STAT
say 2 QUIT
end

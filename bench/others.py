"""A plain SMTP and POP3 server of the distribution, to be measured beside the service: OpenSMTPD and Dovecot, as Debian has them.

`bench/service.py rates` starts them where both are installed (`apt-get install opensmtpd dovecot-pop3d`) and it runs as root, which
they want. They keep one maildir, of `alice@example.org`, in a folder of their own.
"""

import os
import pathlib
import pwd
import shutil
import socket
import subprocess
import tempfile
import time

HOST = "127.0.0.1"
OWNER = "mail"
SECRET = "tanstaaf"

DOVECOT = """
base_dir = {home}/run
state_dir = {home}/state
log_path = {home}/log
protocols = pop3
ssl = no
disable_plaintext_auth = no
listen = {host}
mail_location = maildir:{home}/mail
first_valid_uid = 1
service pop3-login {{
  inet_listener pop3 {{
    port = {pop}
  }}
  inet_listener pop3s {{
    port = 0
  }}
}}
passdb {{
  driver = static
  args = password={secret}
}}
userdb {{
  driver = static
  args = uid={owner} gid={owner} home={home}
}}
"""

SMTPD = """
table users {{ "alice@example.org" = "{owner}" }}
listen on {host} port {smtp}
action "keep" maildir "{home}/mail" virtual <users>
match from any for domain "example.org" action "keep"
"""


def are_installed():
    """Whether both are, and may be started."""
    return os.geteuid() == 0 and all(os.path.exists(f"/usr/sbin/{name}") for name in ("smtpd", "dovecot"))


def descendants(pids):
    """These processes and all below them."""
    below = {}
    for entry in os.listdir("/proc"):
        if entry.isdigit():
            try:
                parent = int(pathlib.Path(f"/proc/{entry}/stat").read_text().rsplit(")", 1)[1].split()[1])
            except OSError:
                continue
            below.setdefault(parent, []).append(int(entry))
    found, left = [], list(pids)
    while left:
        pid = left.pop()
        found.append(pid)
        left += below.get(pid, [])
    return found


class Others:
    """Both servers, while they run. It has what a `Service` has for a load."""

    nodes = 1
    rcpt = "alice@example.org"
    together = 1

    def __init__(self, ports, parent=None):
        self.home = tempfile.mkdtemp(prefix="others-", dir=parent)
        os.chmod(self.home, 0o755)
        self.smtp, self.pop = ports, ports + 1
        owner = pwd.getpwnam(OWNER)
        os.mkdir(os.path.join(self.home, "mail"))
        os.chown(os.path.join(self.home, "mail"), owner.pw_uid, owner.pw_gid)
        parts = {"home": self.home, "host": HOST, "smtp": self.smtp, "pop": self.pop, "secret": SECRET, "owner": OWNER}
        runs = []
        for name, text, words in (("smtpd", SMTPD, ["-d", "-f"]), ("dovecot", DOVECOT, ["-F", "-c"])):
            path = os.path.join(self.home, name)
            pathlib.Path(path).write_text(text.format(**parts))
            runs.append(subprocess.Popen([f"/usr/sbin/{name}", *words, path], stdout=subprocess.DEVNULL, stderr=subprocess.DEVNULL))
        self.runs = runs

    def __enter__(self):
        for port in (self.smtp, self.pop):
            self.await_greeting(port)
        return self

    def await_greeting(self, port):
        """Waits until the server at this port greets, half a minute at most."""
        for _ in range(300):
            try:
                with socket.create_connection((HOST, port), 5) as client:
                    if client.recv(1):
                        return
            except OSError:
                pass
            time.sleep(0.1)
        raise SystemExit("a server of the distribution did not start")

    def __exit__(self, *_):
        for run in self.runs:
            run.terminate()
            run.wait(30)
        shutil.rmtree(self.home, ignore_errors=True)

    def used(self):
        """The processor seconds and the resident MiB of all their processes so far, those that have ended among them."""
        seconds, pages = 0, 0
        for pid in descendants(run.pid for run in self.runs):
            try:
                fields = pathlib.Path(f"/proc/{pid}/stat").read_text().rsplit(")", 1)[1].split()
                pages += int(pathlib.Path(f"/proc/{pid}/statm").read_text().split()[1])
            except OSError:
                continue
            seconds += sum(int(field) for field in fields[11:15])
        return seconds / os.sysconf("SC_CLK_TCK"), pages * os.sysconf("SC_PAGE_SIZE") / 2**20

    def fill(self, texts):
        """Puts messages into the maildir, as a delivery leaves them."""
        owner = pwd.getpwnam(OWNER)
        for part in ("new", "cur", "tmp"):
            path = os.path.join(self.home, "mail", part)
            os.makedirs(path, exist_ok=True)
            os.chown(path, owner.pw_uid, owner.pw_gid)
        for number, text in enumerate(texts):
            path = os.path.join(self.home, "mail", "new", f"{1_000_000 + number}.M{number}.bench")
            pathlib.Path(path).write_bytes(text)
            os.chown(path, owner.pw_uid, owner.pw_gid)

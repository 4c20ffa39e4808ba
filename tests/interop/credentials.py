"""Credentials for the runs: a file with users and a secret, relayd with it, and a client that signs its requests, written from RFC 8489."""
import base64
import contextlib
import hashlib
import hmac
import signal
import struct
import subprocess
import time

import turn
from lab import RELAYD, wait_for

REALM, SECRET = "example.org", "north"
USERS = {"alice": ("opensesame", 3), "bob": ("sesameopen", 4)}
GUEST = 5

USERNAME, INTEGRITY, REALM_KIND, NONCE, INTEGRITY_SHA256 = 0x0006, 0x0008, 0x0014, 0x0015, 0x001C
PASSWORD_ALGORITHM, USERHASH, PASSWORD_ALGORITHMS = 0x001D, 0x001E, 0x8002
SHA256 = bytes([0, 2, 0, 0])


def add_user(path, name, password, *options):
    done = subprocess.run([RELAYD, "user", "add", name, "--realm", REALM, "--credentials", path, *options], input=password + "\n", text=True,
                          capture_output=True, check=False)
    assert done.returncode == 0 and password not in done.stdout + done.stderr, done
    return done.stdout


def remove_user(path, name):
    subprocess.run([RELAYD, "user", "remove", name, "--credentials", path], check=True, capture_output=True)


def write_file(lab):
    """A file of credentials: users with passwords by the daemon's own command, and what an application needs."""
    path = lab.folder / "credentials"
    path.unlink(missing_ok=True)
    for name, (password, number) in USERS.items():
        add_user(path, name, password, "--number", str(number))
    with open(path, "a", encoding="ascii") as more:
        more.write(f"user guest {GUEST}\nsecret {SECRET}\n")
    return path


def timed(name, seconds, secret=SECRET):
    """A time-limited name for this user and its password."""
    user = f"{int(time.time()) + seconds}:{name}"
    return user, base64.b64encode(hmac.new(secret.encode(), user.encode(), hashlib.sha1).digest()).decode()


@contextlib.contextmanager
def relayd(lab, *options):
    with lab.relayd("--credentials", write_file(lab), *options, user=None) as running:
        yield running


def reload(running):
    """SIGHUP, and what relayd says of it."""
    before, words = len(running.log()), ("were read again", "stay as they were")
    running.process.send_signal(signal.SIGHUP)
    return wait_for(lambda: next((line for line in running.written()[before:] if any(word in line for word in words)), None), "a reload")


def granted(running, method):
    """The log's lines of this request's successes."""
    return [line for line in running.written() if f"{method} success" in line]


class Client(turn.Client):
    """A client with a name and a password; by SHA-256 and with its name hashed where it is asked to."""

    def __init__(self, name, password, sha256=False, hashed=False, **options):
        super().__init__(**options)
        self.name, self.password, self.sha256, self.hashed = name.encode(), password.encode(), sha256, hashed
        self.challenge = {}

    def key(self):
        text = b":".join((self.name, self.challenge[REALM_KIND], self.password))
        return hashlib.sha256(text).digest() if self.sha256 else hashlib.md5(text).digest()

    def identity(self):
        realm = self.challenge[REALM_KIND]
        name = turn.attribute(USERNAME, self.name)
        if self.hashed:
            name = turn.attribute(USERHASH, hashlib.sha256(self.name + b":" + realm).digest())
        found = [name, turn.attribute(REALM_KIND, realm), turn.attribute(NONCE, self.challenge[NONCE])]
        if self.sha256:
            offer = self.challenge[PASSWORD_ALGORITHMS]
            found += [turn.attribute(PASSWORD_ALGORITHMS, offer), turn.attribute(PASSWORD_ALGORITHM, SHA256)]
        return found

    def code(self, message):
        """The signature over a message, as if its length ended with it."""
        size, hash_name = (32, "sha256") if self.sha256 else (20, "sha1")
        longer = message[:2] + struct.pack("!H", len(message) - 20 + 4 + size) + message[4:]
        return hmac.new(self.key(), longer, hash_name).digest()

    def signed(self, message):
        body = turn.attribute(INTEGRITY_SHA256 if self.sha256 else INTEGRITY, self.code(message))
        return message[:2] + struct.pack("!H", len(message) - 20 + len(body)) + message[4:] + body

    def make(self, kind, transaction, attributes):
        """A signed request, once there was a challenge."""
        if not self.challenge:
            return turn.message(kind, transaction, attributes)
        return self.signed(turn.message(kind, transaction, [*attributes, *self.identity()]))

    def request(self, kind, *attributes):
        """A request, made again after a first challenge or an old nonce. What the relay itself answers must be signed as the request was."""
        try:
            found = super().request(kind, *attributes)
        except turn.TurnError as error:
            if error.code == 438 or error.code == 401 and not self.challenge:
                self.challenge = {**self.challenge, **error.found}
                return self.request(kind, *attributes)
            if error.code not in (400, 401):
                self.check(self.answer)
            raise
        self.check(self.answer)
        return found

    def check(self, answer):
        """The answer's last attribute is its signature, and it is right."""
        size = 36 if self.sha256 else 24
        assert answer == self.signed(answer[:-size]), answer.hex()

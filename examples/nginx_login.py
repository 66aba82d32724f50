"""Answers nginx's auth_request: 204 if argon2-passwd accepts the name and the password that a browser sent, else 401."""

import base64
import subprocess
from http.server import BaseHTTPRequestHandler, ThreadingHTTPServer
from threading import BoundedSemaphore

ADDRESS = "127.0.0.1", 8900
ACCOUNTS = "/var/lib/accounts/accounts.db"
# Each hash needs its own memory, so at most four hashes are made at once.
AT_ONCE = BoundedSemaphore(4)


def login_status(header):
    """Returns the status of argon2-passwd for a header of Basic authentication.

    The status is 0 if argon2-passwd accepts the login, and 1 if it refuses the login. Any other status means that it failed.
    """
    scheme, _, encoded = header.partition(" ")
    try:
        name, colon, password = base64.b64decode(encoded, validate=True).decode().partition(":")
    except ValueError:
        return 1
    # (argon2-passwd reads one line, and an argument can't contain a NUL)
    if scheme.lower() != "basic" or not colon or "\0" in name or "\n" in password or "\r" in password:
        return 1
    with AT_ONCE:
        words = ["argon2-passwd", "verify", ACCOUNTS, "--", name]
        return subprocess.run(words, input=f"{password}\n".encode(), stdout=subprocess.DEVNULL, check=False).returncode


class Login(BaseHTTPRequestHandler):
    """Answers one request of nginx."""

    def do_GET(self):
        status = login_status(self.headers.get("Authorization", ""))
        self.send_response({0: 204, 1: 401}.get(status, 500))
        self.send_header("WWW-Authenticate", 'Basic realm="private", charset="UTF-8"')
        self.end_headers()


if __name__ == "__main__":
    ThreadingHTTPServer(ADDRESS, Login).serve_forever()

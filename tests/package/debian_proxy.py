#!/usr/bin/python3
"""A proxy that gets files from Debian's servers, and from nowhere else: debian_proxy.py ADDRESS PORT. tests/package/quick_start.sh
starts it for a container that has no other way out."""

import http.server
import sys
import urllib.error
import urllib.request

SERVERS = ("http://deb.debian.org/debian/", "http://deb.debian.org/debian-security/", "http://security.debian.org/")


class Proxy(http.server.BaseHTTPRequestHandler):
    def do_GET(self):
        if not self.path.startswith(SERVERS):
            self.send_error(403)
            return
        kept = {name: self.headers[name] for name in ("If-Modified-Since", "Range", "If-Range") if name in self.headers}
        try:
            with urllib.request.urlopen(urllib.request.Request(self.path, headers=kept), timeout=60) as answer:
                self.send_response(answer.status)
                for name in ("Content-Length", "Content-Type", "Last-Modified", "Content-Range"):
                    if name in answer.headers:
                        self.send_header(name, answer.headers[name])
                self.end_headers()
                while part := answer.read(1 << 16):
                    self.wfile.write(part)
        except urllib.error.HTTPError as fault:
            self.send_error(fault.code)
        except OSError:
            self.send_error(502)

    def log_message(self, *_words):
        pass


http.server.ThreadingHTTPServer((sys.argv[1], int(sys.argv[2])), Proxy).serve_forever()

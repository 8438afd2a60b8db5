#!/usr/bin/python3
"""A web server over TLS for the pages: shop_web.py FOLDER ADDRESS PORT CERTIFICATE KEY. tests/network/shop.py starts it."""

import http.server
import ssl
import sys
from functools import partial
from pathlib import Path

sys.dont_write_bytecode = True
sys.path.insert(0, str(Path(__file__).resolve().parents[1] / "lib"))
from shop_scene import Quiet

folder, address, port, certificate, key = sys.argv[1:]
context = ssl.SSLContext(ssl.PROTOCOL_TLS_SERVER)
context.load_cert_chain(certificate, key)
# a handshake is each connection's own thread's: one that is cut off holds up no other
Quiet.timeout = 20
server = http.server.ThreadingHTTPServer((address, int(port)), partial(Quiet, directory=folder))
server.socket = context.wrap_socket(server.socket, server_side=True, do_handshake_on_connect=False)
server.serve_forever()

"""An nginx (Debian's package nginx-light) with the shop's own configuration, shop/deploy/nginx.conf and nginx_trust.conf, at other ports of the loopback
address: it serves the pages over TLS, and hands on their messages and the codes of new tablets."""

import re
from pathlib import Path

import brokers
from shop_paths import DEPLOY

NGINX = "/usr/sbin/nginx"


class Web:
    """Serves a folder of pages. `mqtt` is the port of the broker's listener for pages, or the whole way there, `codes` the port of
    `ledger-shop sign-in`."""

    def __init__(self, folder: Path, root: Path, mqtt: int | str, codes: int = 9):
        self.folder, self.root, self.child = folder, root, None
        self.port, self.plain = brokers.free_ports(2)
        text = (DEPLOY / "nginx.conf").read_text() + (DEPLOY / "nginx_trust.conf").read_text()
        changes = {
            r"listen \[::\].*\n": "\n",
            r"listen 443 ssl": f"listen 127.0.0.1:{self.port} ssl",
            r"listen 80": f"listen 127.0.0.1:{self.plain}",
            r"/etc/ledger/pages\.crt": str(folder / "broker.crt"),
            r"/etc/ledger/pages\.key": str(folder / "broker.key"),
            r"root /var/www/ledger": f"root {root}",
            r"https://127\.0\.0\.1:8884": mqtt if isinstance(mqtt, str) else f"https://127.0.0.1:{mqtt}",
            r"127\.0\.0\.1:9640": f"127.0.0.1:{codes}",
        }
        for form, chosen in changes.items():
            if not re.search(form, text):
                raise SystemExit(f"web_server: nginx.conf has no {form}")
            text = re.sub(form, chosen, text)
        places = "".join(f"{name}_temp_path {folder}/nginx_{name};\n" for name in ("client_body", "proxy", "fastcgi", "uwsgi", "scgi"))
        own = f"daemon off;\npid {folder}/nginx.pid;\nerror_log {folder}/nginx.log;\nworker_processes 1;\nuser root;\nevents {{ }}\n"
        (folder / "nginx.conf").write_text(f"{own}http {{\naccess_log off;\n{places}{text}}}\n")

    def start(self):
        self.child = brokers.Child([NGINX, "-p", self.folder, "-c", self.folder / "nginx.conf"], self.folder / "nginx.out")
        brokers.until(lambda: brokers.listens(self.port) and brokers.listens(self.plain), 20, "nginx doesn't listen")

    open = start

    def url(self, page, more=""):
        return f"https://localhost:{self.port}/{page}/{more}"

    def close(self):
        if self.child:
            self.child.end()

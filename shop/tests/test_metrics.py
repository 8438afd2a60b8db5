"""The port of the figures answers, whoever holds connections open."""

import socket
import time
import urllib.request

import pytest

pytest.importorskip("prometheus_client")

from ledger_shop import metrics


def free_port():
    with socket.create_server(("127.0.0.1", 0)) as one:
        return one.getsockname()[1]


def asked(port, path="health"):
    """The answer and the seconds that it took."""
    began = time.monotonic()
    with urllib.request.urlopen(f"http://127.0.0.1:{port}/{path}", timeout=5) as answer:
        return answer.read().decode(), time.monotonic() - began


@pytest.fixture
def port(tmp_path):
    port = free_port()
    metrics.figures_of(port, None, str(tmp_path / "shop1.d64")).serves(type("Board", (), {"stock": {}, "top": 0})())
    return port


@pytest.mark.parametrize("sent", [b"", b"GET /health HT", b"GET /health HTTP/1.1\r\nHost: x\r\nX: "])
def test_an_open_connection_keeps_nobody_waiting(port, sent):
    with socket.create_connection(("127.0.0.1", port)) as held:
        held.sendall(sent)
        time.sleep(0.1)
        for path in ("health", "metrics"):
            text, seconds = asked(port, path)
            assert text
            assert seconds < 1


def test_more_connections_than_there_are_threads(port):
    held = [socket.create_connection(("127.0.0.1", port)) for _ in range(3 * metrics.MOST)]
    time.sleep(0.2)
    assert asked(port)[0] == "serving\n"
    for one in held:
        one.close()


def test_a_connection_ends_in_time(port, monkeypatch):
    monkeypatch.setattr(metrics, "PATIENCE", 0.3)
    with socket.create_connection(("127.0.0.1", port)) as held:
        held.settimeout(5)
        began = time.monotonic()
        ended = False
        while time.monotonic() < began + 3 and not ended:
            # a byte now and then doesn't help
            try:
                held.sendall(b"x")
                held.settimeout(0.1)
                ended = held.recv(1) == b""
            except TimeoutError:
                continue
            except OSError:
                ended = True
        assert ended
    assert asked(port)[0] == "serving\n"

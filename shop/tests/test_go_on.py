"""A till goes on after a device was lost that had taken a number and never asked with it (over Debian's mosquitto)."""

import subprocess
import time

import pytest

pytest.importorskip("paho.mqtt.client")

import brokers
from shop_paths import command

from ledger_shop import account, marks, till_mqtt, wishes

TILL = 3


@pytest.fixture
def shop(program, tmp_path):
    if brokers.missing("mosquitto", "openssl"):
        pytest.skip("mosquitto isn't there")
    broker = brokers.Mosquitto(tmp_path, shops={"1": 4})
    image = tmp_path / "shop.d64"
    subprocess.run([program, "format", "--new", image, "--tills", "4"], check=True, capture_output=True)
    broker.start()
    words = command(
        "bridge-mqtt", image, "--program", program, "--keep", tmp_path / "lines", "--screen", *broker.words("bridge-1")
    )
    bridge = brokers.Child(words, tmp_path / "bridge.log")
    yield broker
    bridge.end()
    broker.stop()


def sold(broker, book, *lines, more=()):
    """A till of a terminal: its status, and what it prints."""
    words = command("till-mqtt", TILL, "--book", book, *broker.words(f"till-1-{TILL}"), *more)
    done = subprocess.run(
        [*map(str, words)], input="".join(f"{line}\n" for line in lines), capture_output=True, text=True, timeout=60
    )
    return done.returncode, done.stdout.splitlines(), done.stderr


def lose_device(broker, folder):
    """A device that takes the next number, and is lost before it asks with it."""
    place = account.Place(broker.places[0], "mqtt")
    link = till_mqtt.Broker(place, "1", TILL, account.account_of(broker.accounts.file(f"till-1-{TILL}")), broker.ca, "0" * 16)
    end = time.monotonic() + 30
    while not link.known.is_set() and time.monotonic() < end:
        time.sleep(0.05)
    number = max(link.numbers.shop, 0) + 1
    link.client.publish(link.marks, link.numbers.take(number), qos=1, retain=True).wait_for_publish(5)
    link.close()
    return number


@pytest.mark.parametrize("before", [0, 1, 4])
def test_go_on_leads_out_of_ahead(shop, tmp_path, before):
    if before:
        status, out, err = sold(shop, tmp_path / "first.book", "S,1,100", *["I,1,1"] * (before - 1))
        assert (status, len(out)) == (0, before), err
        time.sleep(1)
    assert lose_device(shop, tmp_path) == before + 1
    book = tmp_path / "new.book"
    status, _, err = sold(shop, book, "S,2,5")
    assert status == wishes.LOOK and "was used on another device" in err
    # it goes on one too far, hears that, and goes on after the shop's number
    status, out, err = sold(shop, book, "S,2,5", "S,2,6", more=["--go-on"])
    assert f"goes on after request {before}; the open wish S,2,5 didn't count" in err
    assert (status, out) == (0, [f"{before + 1} S,2,6 DONE,6"]), err
    status, out, err = sold(shop, book, "I,2,1")
    assert (status, out) == (0, [f"{before + 2} I,2,1 DONE,5"]), err


def test_the_shop_number_has_to_be_known():
    numbers = marks.Numbers("0" * 16)
    assert numbers.below(5) is None
    assert numbers.below(1) == 0
    numbers.shows("2026-11-26T19:05:12.345Z 3,S,1,1,DONE,1")
    assert numbers.below(5) == 3
    assert numbers.below(3) is None

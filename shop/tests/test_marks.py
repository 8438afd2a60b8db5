"""Which device has a till's numbers: what a device says at the broker when it takes one."""

from ledger_shop.marks import Numbers

OURS, OTHER, THIRD = "a" * 16, "b" * 16, "c" * 16


def numbers(text: str) -> Numbers:
    found = Numbers(OURS)
    found.notes(text, True)
    return found


def test_the_number_before_stays_whose_it_is() -> None:
    assert numbers(f"{OTHER} 4:{THIRD} 5:{OTHER}").take(6) == f"{OURS} 5:{OTHER} 6:{OURS}"


def test_a_number_that_is_taken_is_published_once() -> None:
    found = numbers(f"{OTHER} 5:{OTHER}")
    assert found.take(6) is not None
    assert found.take(6) is None


def test_an_older_number_leaves_those_of_others() -> None:
    """A device that was away asks its own open number again; two others have gone on since."""
    found = numbers(f"{OTHER} 2:{THIRD} 3:{OTHER}")
    assert found.take(1) == f"{OURS} 2:{THIRD} 3:{OTHER}"
    assert found.take(1) is None

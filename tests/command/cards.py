"""card read and card make."""
import random

import document01 as paper
from run import CARD, EXCHANGED, SAMPLES, Run, refusal_of, settings


def check_made(_):
    """Cards made and read back, beside document 01."""
    rng = random.Random(2)
    for _ in range(40):
        four = [rng.choice([0, 1, rng.randrange(top + 2), top, top + 1]) for top in (255, 1024, 1024, 40000)]
        card, no = refusal_of(paper.written_card, four, 20)
        run = Run("card", "make", *settings(*four))
        if no:
            run.refused(no["number"])
            continue
        assert run.out == card + b"\n", (four, run.out)
        got = Run("card", "make", *settings(*four), "--json").json()
        assert (got["size"], got["card"], got["refusal"]["number"]) == (20, card.decode(), 0), got
        got = Run("card", "read", card, "--json").json()["cards"]
        assert [got[0]["settings"][name] for name in ("gmin", "batch", "threshold", "spacing")] == four, got
        assert got[0]["card"] == card.decode(), got
    assert "batch 4294967295 or more packets" in Run("card", "make", *settings(batch="9" * 40)).refused(15)
    assert Run("card", "make", *settings(batch="0" * 40 + "7")).status == 0


def check_read(_):
    """Cards as words and as lines, and what is said of those that are refused."""
    text = Run("card", "read", CARD).text()
    assert all(word in text for word in ("16 packets", "100 packets", "10 losses", "400 microseconds")), text
    run = Run("card", "read", CARD, EXCHANGED, "0160", "--json")
    assert [card["refusal"]["number"] for card in run.json()["cards"]] == [0, 12, 11] and run.status == 1
    assert f"card {EXCHANGED}\n" in run.told and "card 0160\n" in run.told, run.what
    Run("card", "read", "").refused(11)
    Run("card", "read", "-", data=b"").refused(11)
    Run("card", "read", "0" * 19 + "O").refused(11)
    Run("card", "read", "25601024010244000045").refused(13)
    assert Run("card", "read", "-", data=f"{CARD}\r\n".encode()).text() == text
    assert Run("card", "read", "-", data=f"{CARD}\n{CARD}\n".encode()).text() == 2 * text
    assert Run("card", "read", "-", data=f"{CARD}\r\n{CARD}".encode()).text() == 2 * text
    assert Run("card", "read", "-", data=f"\n{CARD}\r\n\r\n".encode()).text() == text
    assert Run("card", "read", "-", data=f"{CARD}\n".encode() * 3000).text() == 3000 * text
    Run("card", "read", "-", data=b"\n" * 65537).wrong("too long")
    run = Run("card", "read", CARD, "-", "--json", data=bytes(65537))
    assert run.status == 2 and [card.get("error", card.get("card")) for card in run.json()["cards"]] == [CARD, "too long"], run.what
    assert "is a file" in Run("card", "read", SAMPLES / "hall.card").refused(11)
    assert f"card {'5' * 40}..\n" in Run("card", "read", "5" * 50000).refused(11)
    assert "card a\\u{1b}\\nb\n" in Run("card", "read", "a\x1b\nb").refused(11)


def check_over(_):
    """Settings from a card, and over one."""
    Run("figures", "--card", "-", SAMPLES / "good-line.trace", data=f"{CARD}\n{CARD}\n".encode()).refused(11)
    changed = Run("card", "make", "--card", CARD, "--gmin", "8").text().strip()
    assert Run("card", "read", changed, "--json").json()["cards"][0]["settings"]["gmin"] == 8
    for job in ("figures", "loss", "plan"):
        Run(job, "--card", EXCHANGED, SAMPLES / "good-line.trace").refused(12)
        assert Run(job, "--card", "-", SAMPLES / "good-line.trace", data=(SAMPLES / "hall.card").read_bytes()).status == 0

"""What `check` returns beside the claims, and times that are datetimes."""
import json
import pickle
from datetime import datetime, timedelta, timezone

import pytest

import sdjwt

KEY = "dGhlIHRpY2tldCBvZmZpY2Uga2V5LCBub3QgeW91cnM"
HOLDER = "YW5vdGhlciBrZXksIHRoZSBvbmUgb2YgdGhlIGhvbGRlcg"
KEYS = {"keys": [{"kty": "oct", "kid": "one", "k": KEY}]}
NOW = 1_700_000_000
each = pytest.mark.parametrize


def bound(sign_holder=None, **more):
    """A token with key binding, and the policy that asks for it."""
    token = sdjwt.issue(
        {"payload": {"iss": "tickets", "cnf": {"kid": "ada"}}, "key": KEY, "kid": "one", "typ": "ticket"}
    )
    binding = {"aud": "door", "nonce": "4711"}
    shown = sdjwt.present({"keys": KEYS, "binding": {**binding, "key": HOLDER, "kid": "ada"}}, token, NOW)
    policy = {
        "keys": KEYS,
        "binding": {**binding, "keys": {"keys": [{"kty": "oct", "kid": "ada", "k": HOLDER}]}, "max_age": 60},
        **more,
    }
    return shown, policy


@each("more", [{}, {"algs": ["HS256", "ES256"]}])
def test_the_header_and_the_key_binding(more):
    shown, policy = bound(**more)
    for form in (
        shown,
        shown.encode(),
        sdjwt.convert("flat", shown),
        sdjwt.convert("general", shown),
        json.dumps(sdjwt.convert("flat", shown)),
    ):
        checked = sdjwt.Policy(policy).check(form, NOW)
        assert checked.claims == sdjwt.Policy(policy).verify(form, NOW) == {"iss": "tickets", "cnf": {"kid": "ada"}}
        assert checked.header == {"alg": "HS256", "kid": "one", "typ": "ticket"}
        assert set(checked.binding) == {"aud", "iat", "nonce", "sd_hash"}
        assert (checked.binding["aud"], checked.binding["iat"], checked.binding["nonce"]) == ("door", NOW, "4711")
        # of a shared key nothing that is secret, and nothing at all where the library checks the signature
        assert checked.key == ({"kty": "oct", "kid": "one"} if more else None)
        assert KEY not in repr(checked)


def test_a_key_binding_token_that_is_not_checked_is_not_told():
    shown, policy = bound()
    del policy["binding"]
    assert sdjwt.show(shown)["binding"] is not None
    assert sdjwt.Policy(policy).check(shown, NOW).binding is None
    changed = shown[:-4] + "AAAA"
    assert sdjwt.Policy(policy).check(changed, NOW).binding is None


@each("more", [{}, {"algs": ["HS256", "ES256"]}])
def test_what_is_refused_is_refused(more):
    shown, policy = bound(**more)
    kept = sdjwt.Policy(policy)
    for token, given, kind in (
        (shown[:-4] + "AAAA", {}, sdjwt.BindingRefused),
        (shown, {"nonce": "4712"}, sdjwt.NonceDiffers),
        (shown, {"audience": "gate"}, sdjwt.AudienceDiffers),
        ("x", {}, sdjwt.Refused),
        (5, {}, TypeError),
    ):
        with pytest.raises(kind):
            kept.check(token, NOW, **given)
    assert kept.check(shown, NOW, nonce="4711", audience="door").claims == kept.verify(shown, NOW)
    with pytest.raises(sdjwt.TooLong):
        kept.check(shown, NOW, most=5)


def test_the_public_key_of_the_issuer():
    pytest.importorskip("cryptography")
    from public import Key
    issuers = [Key("ES256", number) for number in range(3)]
    policy = sdjwt.Policy(
        {"keys": [key.jwk(kid=str(number), use="sig") for number, key in enumerate(issuers)], "algs": ["ES256"]}
    )
    for number, key in enumerate(issuers):
        token = sdjwt.issue({"payload": {"a": 1}, "kid": str(number)}, sign=key.pair)
        assert policy.check(token).key == {**key.jwk(), "kid": str(number)}
    assert sdjwt.Policy({"keys": {"keys": []}, "algs": ["ES256"]}, check=lambda question: True).check(token).key is None


def test_it_is_a_value():
    shown, policy = bound()
    checked = sdjwt.Policy(policy).check(shown, NOW)
    assert checked == sdjwt.Policy(policy).check(shown, NOW) == pickle.loads(pickle.dumps(checked))
    with pytest.raises(AttributeError):
        checked.claims = {}
    assert type(checked).__module__ == "sdjwt"


# ---- times

def test_a_time_may_be_a_datetime():
    token = sdjwt.issue({"payload": {"exp": NOW}, "key": KEY})
    policy = sdjwt.Policy({"keys": KEYS})
    zones = [timezone.utc, timezone(timedelta(hours=5, minutes=30)), timezone(-timedelta(hours=11))]
    for zone in zones:
        exp = datetime.fromtimestamp(NOW, zone)
        for before in (exp - timedelta(microseconds=1), exp - timedelta(days=1)):
            assert (
                policy.verify(token, before)
                == sdjwt.verify({"keys": KEYS}, token, before)
                == policy.check(token, before).claims
                == {"exp": NOW}
            )
        for after in (exp, exp + timedelta(microseconds=1), datetime.max.replace(tzinfo=zone)):
            with pytest.raises(sdjwt.Expired):
                policy.verify(token, after)
    shown, bound_policy = bound()
    assert sdjwt.Policy(bound_policy).verify(shown, datetime.fromtimestamp(NOW + 60, timezone.utc))["iss"] == "tickets"
    at = datetime(2026, 1, 1, 0, 0, 0, 999_999, tzinfo=timezone.utc)
    order = {"keys": KEYS, "binding": {"key": HOLDER, "kid": "ada", "aud": "door", "nonce": "1"}}
    token = sdjwt.issue({"payload": {"cnf": {"kid": "ada"}}, "key": KEY})
    assert sdjwt.present(order, token, at) == sdjwt.present(order, token, 1_767_225_600)


class NoZone(datetime):
    """A datetime whose zone does not know its distance."""

    def utcoffset(self):
        return None


@each(
    "now, said",
    [
        (datetime(2026, 1, 1), "without a time zone"),
        (NoZone(2026, 1, 1, tzinfo=timezone.utc), "without a time zone"),
        (datetime(1969, 12, 31, tzinfo=timezone.utc), "no moment"),
        (datetime.min.replace(tzinfo=timezone.utc), "no moment"),
        (datetime(1970, 1, 1, tzinfo=timezone(timedelta(hours=1))), "no moment"),
    ],
    ids=str,
)
def test_a_datetime_that_is_no_time(now, said):
    token = sdjwt.issue({"payload": {}, "key": KEY})
    for call in (
        sdjwt.Policy({"keys": KEYS}).verify,
        sdjwt.Policy({"keys": KEYS}).check,
        lambda *given: sdjwt.verify({"keys": KEYS}, *given),
        lambda *given: sdjwt.present({"keys": KEYS}, *given),
    ):
        with pytest.raises(ValueError, match=f"sdjwt: now is .*{said}"):
            call(token, now)

"""Runs the calls of the package where little stack is left, in a process of its own, since that may end it.

    python3 stacks.py here        on the main thread: what each call says
    python3 stacks.py small KIB   on a thread of so many KiB: what each call says
python3 stacks.py deep KIB    on a thread of so many KiB, one level above the last of a recursion at which a call is not
refused: the deepest inputs of each call

What each call says is a line: its name, and the type of what it raised, or `answered`. `deep` prints how many levels
and how many calls there were.
"""
import base64
import json
import sys
import threading

import sdjwt

KEY = "dGhlIHRpY2tldCBvZmZpY2Uga2V5LCBub3QgeW91cnM"
KEYS = {"keys": [{"kty": "oct", "k": KEY}]}
SEED = bytes(32)
NOW = 1_800_000_000
SIMPLE = {"payload": {"seat": 1}, "hide": ["/seat"]}
ASKING = {"keys": {"keys": []}, "algs": ["X1"]}
BINDING = {"aud": "door", "nonce": "once"}


def yes(question):
    return True


def sign(text):
    return b"signed"


def nested(depth, start, end, inside):
    return start * depth + inside + end * depth


def objects(depth, inside="1", name="a"):
    return nested(depth, '{"%s":' % name, "}", inside)


def lists(depth, inside="1"):
    return nested(depth, "[", "]", inside)


def coded(text):
    return base64.urlsafe_b64encode(text.encode()).rstrip(b"=").decode()


def calls_over(order, want):
    """Each call over an order, its token by HMAC or by a function, and a place in it."""
    full, query = {**order, "key": KEY}, {"keys": KEYS, "want": [want]}
    bound = {"algs": ["X1"], "want": [want], "binding": {**BINDING, "alg": "X1"}}
    token, asked = sdjwt.issue(full, SEED), sdjwt.issue(order, SEED, sign=sign, alg="X1")
    shown = sdjwt.present(bound, asked, NOW, check=yes, sign=sign)
    policy, asking = sdjwt.Policy({"keys": KEYS}), sdjwt.Policy(ASKING, check=yes)
    holder = sdjwt.Policy({**ASKING, "binding": {**BINDING, "max_age": 60, "keys": {"keys": []}}}, check=yes)
    return {
        "issue": lambda: sdjwt.issue(full, SEED),
        "issue, with sign": lambda: sdjwt.issue(order, SEED, sign=sign, alg="X1"),
        "present": lambda: sdjwt.present(query, token, NOW),
        "present, with sign": lambda: sdjwt.present(bound, asked, NOW, check=yes, sign=sign),
        "verify": lambda: sdjwt.verify({"keys": KEYS}, token, NOW),
        "verify, with check": lambda: sdjwt.verify(ASKING, asked, NOW, check=yes),
        "Policy": lambda: sdjwt.Policy({"keys": KEYS}),
        "Policy.verify": lambda: policy.verify(token, NOW),
        "Policy.verify, with check": lambda: asking.verify(asked, NOW),
        "Policy.verify, with check of a holder": lambda: holder.verify(shown, NOW),
        "show": lambda: sdjwt.show(token),
        "split": lambda: sdjwt.split(token),
        "convert": lambda: sdjwt.convert("general", token),
        "audit": lambda: sdjwt.audit(full, token),
        "wallet": lambda: sdjwt.wallet(query, [token]),
    }


def calls_with_keys():
    """The calls for which cryptography is loaded, where it is there."""
    try:
        from public import Key
    except ImportError:
        return {}
    key = Key("ES256")
    keys, token = {"keys": {"keys": [key.jwk()]}, "algs": ["ES256"]}, sdjwt.issue(
        SIMPLE, SEED, sign=key.sign, alg="ES256"
    )
    policy = sdjwt.Policy(keys)
    return {
        "issue, with a private key": lambda: sdjwt.issue(SIMPLE, SEED, sign=key.pair),
        "present, with a private key": lambda: sdjwt.present({**keys, "binding": BINDING}, token, NOW, sign=key.pair),
        "verify, with public keys": lambda: sdjwt.verify(keys, token, NOW),
        "Policy, with public keys": lambda: sdjwt.Policy(keys),
        "Policy.verify, with public keys": lambda: policy.verify(token, NOW),
    }


def simple():
    """Each call, over an order that is no trouble.

    They hold policies, the last of which is freed where they are dropped.
    """
    return {**calls_over(SIMPLE, "/seat"), **calls_with_keys()}


def deepest_orders():
    """Orders whose tokens nest as deep as any may, with a place at the very end."""
    for beside in (0, 60):
        for is_hidden in (False, True):
            made = {"a": 1}
            for _ in range(99):
                made = {"a": made, **{f"b{number}": number for number in range(beside)}}
            places = ["/a" * length for length in range(1, 101)]
            yield {"payload": made, "hide": places if is_hidden else []}, places[-1]
    yield {"payload": {"a": json.loads(lists(98)), "seat": 1}, "hide": ["/a", "/seat"]}, "/a"


def deep_texts():
    """Texts that nest as deep as any is read, with what is refused only at the end, and texts that nest deeper."""
    for nest in (objects, lists):
        for inside in ("1", "1.5", "1e999", '{"a":1,"a":2}', "x"):
            yield nest(125, inside)
        yield from (nest(depth) for depth in (126, 127, 128, 100_000))
    yield "[" * 100_000


def tokens_with(text):
    """Tokens that have a text in one of their parts."""
    token = sdjwt.issue({**SIMPLE, "key": KEY}, SEED)
    head, body, signature = token.split("~")[0].split(".")
    flat = '{"payload":"%s","protected":"%s","signature":"%s",%%s}' % (body, head, signature)
    yield from (text, flat % f'"header":{text}', flat % f'"header":{{"disclosures":{text}}}', flat % f'"other":{text}',
                '{"payload":"%s","signatures":[%s]}' % (body, text))
    part = coded(text)
    yield from (
        f"{part}.{body}.{signature}~",
        f"{head}.{part}.{signature}~",
        f"{token}{coded(f'[0,0,{text}]')}~",
        f"{token}{part}~",
        f"{token}{part}.{body}.{signature}",
        f"{token}{head}.{part}.{signature}",
    )


def calls_with(token):
    """The calls that a stranger's token goes to."""
    query, policy, asking = (
        {"keys": KEYS, "want": ["/seat"]},
        sdjwt.Policy({"keys": KEYS}),
        sdjwt.Policy(ASKING, check=yes),
    )
    return [
        lambda: sdjwt.show(token), lambda: sdjwt.split(token), lambda: sdjwt.convert("flat", token),
        lambda: policy.verify(token), lambda: asking.verify(token), lambda: sdjwt.verify({"keys": KEYS}, token),
        lambda: sdjwt.present(query, token), lambda: sdjwt.present({"algs": ["X1"]}, token, check=yes),
        lambda: sdjwt.wallet(query, [token]), lambda: sdjwt.audit({**SIMPLE, "key": KEY}, token),
    ]


def files_with(text):
    """Orders, policies and queries that have a text in them."""
    return [
        text,
        *(
            f'{{"{member}":{text}}}'
            for member in ("payload", "hide", "keys", "algs", "want", "equal", "binding", "other")
        ),
    ]


def calls_of(file):
    """The calls that a file goes to."""
    token = sdjwt.issue({**SIMPLE, "key": KEY}, SEED)
    return [
        lambda: sdjwt.issue(file, SEED),
        lambda: sdjwt.issue(file, SEED, sign=sign, alg="X1"),
        lambda: sdjwt.Policy(file),
        lambda: sdjwt.verify(file, token),
        lambda: sdjwt.present(file, token),
        lambda: sdjwt.audit(file, token),
        lambda: sdjwt.wallet(file, [token]),
    ]


def deepest():
    """The calls that take the most stack."""
    for order, place in deepest_orders():
        yield from calls_over(order, place).values()
    for text in deep_texts():
        for token in tokens_with(text):
            yield from calls_with(token)
        # of a file with public keys Python reads the JSON too, and 3.13 needs some MB for one that nests so deep
        for file in files_with(text) if len(text) < 10_000 else ():
            yield from calls_of(file)


def said(call):
    """What a call says."""
    try:
        call()
    except Exception as fault:
        return type(fault).__name__
    return "answered"


def tell(calls):
    for name in list(calls):
        # this drops the policy of a call too
        print(f"{name}: {said(calls.pop(name))}")


def descend(act):
    """Goes down as far as a call is not refused, and acts one level above. Answers how many levels there are."""
    if said(lambda: sdjwt.split("")) == "OutOfStack":
        return 0
    below = []
    # of all that calls itself again this takes the most stack for a level, some 5 KiB
    sorted([0], key=lambda _: below.append(descend(act)))
    if below == [1]:
        act()
    return below[0] + 1


def tell_deepest(calls):
    told = []
    levels = descend(lambda: told.extend(said(call) for call in calls))
    print(f"{levels} levels, {len(told)} calls, {told.count('OutOfStack')} refused")


def on_thread(kib, act):
    threading.stack_size(kib * 1024)
    thread = threading.Thread(target=act)
    thread.start()
    thread.join()


def main():
    how, *kib = sys.argv[1:]
    calls = {}
    if how == "deep":
        calls = list(deepest())
        on_thread(int(kib[0]), lambda: tell_deepest(calls))
        return
    on_thread(8192, lambda: calls.update(simple()))
    if how == "here":
        tell(calls)
    else:
        on_thread(int(kib[0]), lambda: tell(calls))


if __name__ == "__main__":
    main()

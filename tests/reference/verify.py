"""RFC 9901 section 7: processing (7.1), verifying (7.3), and presenting with the wallet, which chooses alike (7.2)."""

from __future__ import annotations
from collections import namedtuple
from collections.abc import Iterable, Iterator
from files import Said
from outcome import COMPACT_MAX, DEPTH_MAX, Refused, refuse, refuse_first
from texts import ALGORITHMS, Key, Members, Path, Tree
from texts import at, carried, digest_of, inside, is_whole, pick, sign, write, written
from tokens import Disclosure, Token, read_content, read_header, read_token

Given = dict[str, Disclosure]  # By their digests, in the order of the token.
Site = namedtuple("Site", "digest holder is_member")  # The holder has it in its _sd, or as one of its elements.
Judged = namedtuple("Judged", "claims places hash_name")  # What is shown, and the place of each disclosure.

def is_hidden(element: Tree) -> bool:
    """Whether an element of an array stands for a hidden one (RFC 9901 section 4.2.4.2)."""
    return isinstance(element, dict) and list(element) == ["..."] and isinstance(element["..."], str)

def is_misused(tree: Tree) -> bool:
    """Whether a reserved name stands where it means nothing (RFC 9901 section 4.2.4)."""
    if isinstance(tree, dict):
        digests = tree.get("_sd", [])
        are_texts = isinstance(digests, list) and all(isinstance(each, str) for each in digests)
        return "..." in tree or not are_texts or any(is_misused(tree[name]) for name in tree if name != "_sd")
    return isinstance(tree, list) and any(not is_hidden(element) and is_misused(element) for element in tree)

def sites(tree: Tree) -> Iterator[Site]:
    """The digests of a tree, in order."""
    if isinstance(tree, dict):
        yield from (Site(digest, tree, True) for digest in tree.get("_sd", []))
    for step, value in inside(tree):
        if isinstance(tree, list) and is_hidden(value):
            yield Site(value["..."], tree, False)
        elif isinstance(tree, list) or step != "_sd":
            yield from sites(value)

def repeats(texts: Iterable[str]) -> Iterator[bool]:
    """Of each text, whether it stands earlier as well."""
    earlier: set[str] = set()
    for text in texts:
        yield text in earlier
        earlier.add(text)

def process(payload: Members, disclosures: list[Disclosure], hash_name: str) -> Judged:
    """The processed payload, or the lowest of conditions 14 to 21 that fails: section 7.1, steps 3 to 5."""
    digests = [digest_of(each.text, hash_name) for each in disclosures]
    refuse_first(14, repeats(digests))
    root = {name: value for name, value in payload.items() if name != "_sd_alg"}
    refuse_first(15, map(is_misused, [root, *(each.value for each in disclosures)]))
    given, places = dict(zip(digests, disclosures)), dict[str, Path]()
    _judge_sites(root, given)
    claims = _open(root, (), given, places)
    return Judged(claims, [places[digest] for digest in digests], hash_name)

def _judge_sites(root: Tree, given: Given) -> None:
    """Conditions 16 to 20, over the digests of the payload and of the values of the reached disclosures."""
    met = list(sites(root))
    waiting, reached = list(met), set[str]()
    while waiting:  # Steps 3.b and 3.c, for each value again.
        digest = waiting.pop().digest
        if digest in given and digest not in reached:
            reached.add(digest)
            waiting.extend(sites(given[digest].value))
    met += [site for digest in given if digest in reached for site in sites(given[digest].value)]
    refuse_first(16, repeats(site.digest for site in met))  # Step 4: each digest stands once.
    refuse_first(17, (digest not in reached for digest in given))  # Step 5: each disclosure is referenced.
    site_of = {site.digest: site for site in met}
    stands = [(disclosure.name, site_of[digest]) for digest, disclosure in given.items()]
    refuse_first(18, (site.is_member != (name is not None) for name, site in stands))  # Steps 3.c.ii.1 and 3.c.iii.1.
    refuse_first(19, (name in ("_sd", "...") or (name == "_sd_alg" and site.holder is root) for name, site in stands))
    taken = set()
    for position, site in enumerate(met):  # Step 3.c.ii.3; 19 is step 3.c.ii.2.
        if site.is_member and site.digest in given:
            name = given[site.digest].name
            refuse(20, name in site.holder or (id(site.holder), name) in taken, position)
            taken.add((id(site.holder), name))

def _open(tree: Tree, path: Path, given: Given, places: dict[str, Path]) -> Tree:
    """A tree with its disclosures in their places; or condition 21. A path has as many steps as levels are above."""
    refuse(21, isinstance(tree, (dict, list)) and len(path) >= DEPTH_MAX)

    def opened(value: Tree, step: str) -> Tree:
        return _open(value, (*path, step), given, places)

    def disclosed(digest: str, step: str) -> Tree:
        places[digest] = (*path, step)
        return opened(given[digest].value, step)

    if isinstance(tree, dict):
        digests = [digest for digest in tree.get("_sd", []) if digest in given]
        names = [given[digest].name for digest in digests]
        shown = {name: opened(value, name) for name, value in tree.items() if name != "_sd"}
        return {**shown, **dict(zip(names, map(disclosed, digests, names)))}
    if not isinstance(tree, list):
        return tree
    left = [element for element in tree if not is_hidden(element) or element["..."] in given]
    return [disclosed(element["..."], str(position)) if is_hidden(element) else opened(element, str(position))
            for position, element in enumerate(left)]

def judge_signed(token: Token, keys: list[Key], algs: Iterable[str], typ: str | None = None) -> Judged:
    """Conditions 5 to 21: the header, the signature, the disclosures and the processing."""
    header = read_header(token.protected, token.unprotected)  # Condition 5.
    refuse(6, "crit" in header)  # RFC 7515 section 4.1.11.
    refuse(7, header["alg"] not in ALGORITHMS or header["alg"] not in algs)
    refuse(8, typ is not None and header.get("typ") != typ)
    key = pick(keys, header["alg"], header.get("kid"))
    refuse(9, key is None)
    refuse(10, token.signature != sign(token.protected, token.payload, key.octets, header["alg"]))
    return process(*read_content(token))  # Conditions 11 to 13, and the rest.

def verify(policy: Said, token: Token, now: int) -> Members:
    """The processed payload, or the lowest of conditions 4 to 38 that fails."""
    refuse(4, policy["binding"] is not None and token.binding is None)  # RFC 9901 section 7.3, step 1.
    judged = judge_signed(token, policy["keys"], policy["algs"], policy["typ"])
    judge_claims(policy, judged.claims, now)
    if policy["binding"] is not None:
        _judge_holder(policy, token, judged, now)
    return judged.claims

def judge_claims(policy: Said, claims: Members, now: int) -> None:
    """Conditions 22 to 26."""
    refuse(22, policy["iss"] is not None and claims.get("iss") not in policy["iss"])
    refuse_first(23, (name not in claims for name in policy["require"]))
    _judge_times(claims, now, policy["skew"], 24, 25, 26)

def _judge_times(claims: Members, now: int, skew: int, unreadable: int, expired: int, early: int) -> None:
    """RFC 7519 sections 4.1.4 and 4.1.5, by the numbers of three conditions."""
    refuse(unreadable, any(name in claims and not is_whole(claims[name]) for name in ("exp", "nbf")))
    refuse(expired, "exp" in claims and now >= claims["exp"] + skew)
    refuse(early, "nbf" in claims and now + skew < claims["nbf"])

def holder_kid(claims: Members) -> str | None:
    """The kid of the claim cnf (RFC 7800 section 3.4)."""
    kid = at(claims, ("cnf", "kid"))[1]
    return kid if isinstance(kid, str) else None

def _judge_holder(policy: Said, token: Token, judged: Judged, now: int) -> None:
    """RFC 9901 section 7.3, step 5: conditions 27 to 30, and the rest."""
    kid = holder_kid(judged.claims)
    key = None if kid is None else pick(policy["binding"]["keys"], "HS256", kid)
    refuse(27, key is None)
    protected, payload, signature = str(token.binding).split(".")
    header = read_header(protected, {}, 28)
    refuse(28, "crit" in header)
    refuse(29, header["alg"] != "HS256")
    refuse(30, signature != sign(protected, payload, key.octets, "HS256"))
    judge_binding(policy, header.get("typ"), carried(payload) or {}, digest_of(token.hashed(), judged.hash_name), now)

def judge_binding(policy: Said, typ: str | None, said: Members, sd_hash: str, now: int) -> None:
    """What a key binding token says, behind its signature: conditions 31 to 38."""
    wish, skew = policy["binding"], policy["skew"]
    refuse(31, typ != "kb+jwt")
    iat, *texts = (said.get(name) for name in ("iat", "aud", "nonce", "sd_hash"))
    refuse(32, not is_whole(iat) or not all(isinstance(each, str) for each in texts))
    refuse(33, now > iat + wish["max_age"] + skew)
    refuse(34, iat > now + skew)
    refuse(35, said["nonce"] != wish["nonce"])
    refuse(36, said["aud"] not in wish["aud"])
    refuse(37, said["sd_hash"] != sd_hash)
    _judge_times(said, now, skew, 38, 38, 38)

def judge_held(token: Token, keys: list[Key]) -> Judged:
    """Refusals 71, 5 to 7 and 9 to 21: the token as a verifier who allows all three algorithms judges it."""
    refuse(71, token.binding is not None)
    return judge_signed(token, keys, ALGORITHMS)

def choose(order: Said, held: Judged) -> list[int]:
    """The least choice of disclosures that shows what is wanted, or refusal 72 or 73."""
    refuse_first(72, (not at(held.claims, path)[0] for path in order["want"]))
    chosen = [number for number, place in enumerate(held.places)
              if any(path[:len(place)] == place for path in order["want"])]
    for number in chosen:
        refuse(73, any(held.places[number][:len(path)] == path for path in order["never"]), number)
    return chosen

def present(order: Said, token: Token, now: int) -> Token:
    """The token with the least choice of disclosures, and the key binding token that is asked for."""
    held = judge_held(token, order["keys"])
    shown, wish = token.showing(choose(order, held)), order["binding"]
    if wish is not None:  # RFC 9901 section 4.3.
        seen = process(*read_content(shown))
        refuse(74, holder_kid(seen.claims) != wish["kid"])
        header = written({"alg": "HS256", "typ": "kb+jwt"})
        payload = written({"aud": wish["aud"], "iat": now, "nonce": wish["nonce"],
                           "sd_hash": digest_of(shown.hashed(), held.hash_name)})
        shown.binding = f"{header}.{payload}.{sign(header, payload, wish['key'], 'HS256')}"
    refuse(75, len(shown.compact()) > COMPACT_MAX)
    return shown

def wallet(query: Said, credentials: list[bytes]) -> str:
    """The usable credential that answers with the fewest disclosures, the first of equals; or 77."""
    asked = {**query, "want": query["want"] + [entry["at"] for entry in query["equal"]]}
    answers: list[tuple[int, int, str]] = []
    for number, data in enumerate(credentials):
        try:
            token = read_token(data)
            held = judge_held(token, query["keys"])
            numbers = choose(asked, held)
        except Refused:
            continue
        if all(write(at(held.claims, entry["at"])[1]) == write(entry["value"]) for entry in query["equal"]):
            answers.append((len(numbers), number, token.showing(numbers).compact()))
    refuse(77, not answers)
    return "credential {1}\n{2}".format(*min(answers))

"""The workloads of the comparison: orders, tokens, policies and present orders, which are the same in each run."""
import base64
import json
import random
import subprocess
from pathlib import Path

FAR = 4_102_444_800
KEY = base64.urlsafe_b64encode(bytes([1]) * 32).rstrip(b"=").decode()
HOLDER = base64.urlsafe_b64encode(bytes([2]) * 32).rstrip(b"=").decode()
KEYS = {"keys": [{"kty": "oct", "kid": "issuer-1", "k": KEY}]}
SEED = bytes(range(32))


def small():
    """A card with seven hidden claims, some of them inside others; it is presented with a key binding token."""
    payload = {"iss": "https://issuer.example.com", "iat": 1683000000, "exp": FAR, "cnf": {"kid": "holder"},
               "given_name": "Ada", "family_name": "Byron", "email": "ada@example.com", "over_18": True,
               "address": {"street_address": "123 Main St", "locality": "Anytown", "country": "US"},
               "nationalities": ["GB", "FR"]}
    hide = ["/given_name", "/family_name", "/email", "/address", "/address/street_address", "/nationalities/0",
            "/nationalities/1"]
    return payload, hide


def flat(count):
    """Many hidden members side by side."""
    payload = {"iss": "office", "exp": FAR}
    payload.update((f"claim_{i:05}", f"the value of claim {i}") for i in range(count))
    return payload, [f"/claim_{i:05}" for i in range(count)]


def nested(depth=90):
    """Hidden members, each inside the one before."""
    payload = {"n": 0}
    for i in range(depth):
        payload = {"in": payload, "at": i}
    return {"iss": "office", "exp": FAR, "tree": payload}, ["/tree" + "/in" * i for i in range(depth)]


def lists(count=1000):
    """Hidden elements of arrays, between visible ones."""
    payload = {"iss": "office", "exp": FAR, "rows": [[i, f"row {i}", i * i] for i in range(count)]}
    return payload, [f"/rows/{i}/1" for i in range(count)] + [f"/rows/{i}" for i in range(0, count, 2)]


def long(count=64):
    """Few disclosures, each of some thousand bytes."""
    chosen = random.Random(1)
    letters = "abcdefghijklmnopqrstuvwxyz "
    payload = {"iss": "office", "exp": FAR}
    payload.update((f"scan_{i:02}", "".join(chosen.choices(letters, k=8000))) for i in range(count))
    return payload, [f"/scan_{i:02}" for i in range(count)]


def plain(size=1_000_000):
    """A payload of so many bytes in which nothing is hidden."""
    chosen = random.Random(2)
    rows = [{"id": i, "name": f"name {chosen.randrange(10 ** 6)}", "tags": ["a", "b", str(i)], "ok": i % 3 == 0}
            for i in range(size // 64)]
    return {"iss": "office", "exp": FAR, "rows": rows}, []


SHAPES = {"small": small, "flat 1,000": lambda: flat(1000), "flat 4,096": lambda: flat(4096), "nested 90": nested,
          "lists 1,000": lists, "long 64": long, "plain 1 MB": plain, "flat 32,768": lambda: flat(32_768),
          "plain 6 MB": lambda: plain(6_000_000)}
COMMANDS = ("issue", "present", "verify", "show", "split", "convert")


class Files:
    """The files of a shape in a folder: order, seed, present order and policy, and the tokens that a program makes."""

    def __init__(self, folder, name, shape, program):
        self.folder, self.name = Path(folder), name.replace(" ", "_").replace(",", "")
        payload, hide = shape()
        bound = "cnf" in payload
        self.write("order", {"payload": payload, "hide": hide, "key": KEY, "kid": "issuer-1"})
        asked = {"keys": KEYS, "want": hide}
        policy = {"keys": KEYS, "iss": payload["iss"]}
        if bound:
            at = {"aud": "https://verifier.example", "nonce": "4711"}
            asked["binding"] = {**at, "key": HOLDER, "kid": "holder"}
            holders = {"keys": [{"kty": "oct", "kid": "holder", "k": HOLDER}]}
            policy["binding"] = {**at, "keys": holders, "max_age": 2 ** 32 - 1}
        self.write("ask", asked)
        self.write("policy", policy)
        self.path("seed").write_bytes(SEED)
        self.make(program, "token", self.words("issue"))
        self.make(program, "shown", self.words("present"))

    def path(self, part):
        return self.folder / f"{self.name}.{part}"

    def write(self, part, value):
        self.path(part).write_text(json.dumps(value, separators=(",", ":")), encoding="utf-8")

    def make(self, program, part, words):
        with self.path(part).open("wb") as out:
            subprocess.run([program, *words], stdout=out, check=True)

    def words(self, command):
        """The words of a command over these files."""
        files = {"issue": ["order", "seed"], "present": ["ask", "token"], "verify": ["policy", "shown"],
                 "show": ["shown"], "split": ["shown"], "convert": ["shown"]}[command]
        form = ["flat"] if command == "convert" else []
        return [command, *form, *(str(self.path(part)) for part in files)]


def all_of(folder, program, only=""):
    """Names and words of the workloads in whose names a word stands."""
    for shape, make in SHAPES.items():
        names = [f"{command} {shape}" for command in COMMANDS]
        if not any(only in name for name in names):
            continue
        files = Files(folder, shape, make, program)
        for command, name in zip(COMMANDS, names):
            if only in name:
                yield name, files.words(command)
    if only in "gen 3000":
        yield "gen 3000", ["gen", "3000"]


def broken(token):
    """Tokens that are not accepted, made from a presentation, each with a word on what is wrong."""
    jwt, *rest = token.decode().strip().split("~")
    header, payload, signature = jwt.split(".")
    middle, last = rest[:-1], rest[-1]
    join = "~".join
    yield "nothing", ""
    yield "no tilde", jwt
    yield "a blank inside", join([jwt, *middle, " " + last])
    yield "cut", token.decode()[:len(token) // 2]
    yield "another signature", join([f"{header}.{payload}.{signature[:-2]}AA", *middle, last])
    yield "another header", join([f"e30.{payload}.{signature}", *middle, last])
    yield "no binding", join([jwt, *middle, ""])
    yield "one too few", join([jwt, *middle[1:], last])
    yield "one twice", join([jwt, *middle, middle[0], last])
    yield "a stranger", join([jwt, *middle, "WyJzYWx0IiwibmFtZSIsMV0", last])
    yield "no disclosure", join([jwt, "e30", *middle, last])
    flat_form = {"payload": payload, "protected": header, "signature": signature, "header": {"disclosures": middle}}
    yield "flattened", json.dumps(flat_form)
    yield "flattened, 1.5", json.dumps({**flat_form, "x": 1.5})
    yield "flattened, critical", json.dumps({**flat_form, "header": {"disclosures": middle, "crit": []}})
    entries = [{"protected": header, "signature": signature}, {"header": {"kb_jwt": 1}}]
    general = {"payload": payload, "signatures": entries}
    yield "general, a stray", json.dumps(general)
    yield "not JSON", "{"

// Ada's wallet: her key and her tickets, which stay in this browser.

const TICKETS = "tickets";

// One request to the key store of this browser.
function stored(mode, request) {
  return new Promise((done, failed) => {
    const opening = indexedDB.open("wallet", 1);
    opening.onupgradeneeded = () => opening.result.createObjectStore("keys");
    opening.onerror = () => failed(opening.error);
    opening.onsuccess = () => {
      const asked = request(opening.result.transaction("keys", mode).objectStore("keys"));
      asked.onerror = () => failed(asked.error);
      asked.onsuccess = () => done(asked.result);
    };
  });
}

// The pair of keys, made at the first visit. The private key is not extractable, so no script can read it.
export async function openKey() {
  const kept = await stored("readonly", (store) => store.get("ada"));
  if (kept) return kept;
  const made = await makeKey();
  await stored("readwrite", (store) => store.put(made, "ada"));
  return made;
}

export function makeKey() {
  return crypto.subtle.generateKey({ name: "ECDSA", namedCurve: "P-256" }, false, ["sign"]);
}

// The public key, which the office puts into the ticket.
export async function publicKey(pair) {
  const { kty, crv, x, y } = await crypto.subtle.exportKey("jwk", pair.publicKey);
  return { kty, crv, x, y };
}

// The signature of a text by ES256. WebCrypto gives it as a JWS has it: r and s, and not DER.
export async function sign(pair, text) {
  const bytes = new TextEncoder().encode(text);
  const made = await crypto.subtle.sign({ name: "ECDSA", hash: "SHA-256" }, pair.privateKey, bytes);
  const base64 = btoa(String.fromCharCode(...new Uint8Array(made)));
  return base64.replaceAll("+", "-").replaceAll("/", "_").replaceAll("=", "");
}

// The tickets that the office with this key has issued, the newest first. The office's key is made when the service
// starts, so older tickets are of no use, and are dropped.
export function tickets(office) {
  const kept = JSON.parse(localStorage.getItem(TICKETS) ?? "[]").filter((ticket) => ticket.office === office);
  localStorage.setItem(TICKETS, JSON.stringify(kept));
  return kept.map((ticket) => ticket.text);
}

export function keep(office, text) {
  const kept = tickets(office).filter((other) => other !== text);
  write(office, [text, ...kept].slice(0, 10));
}

export function remove(office, text) {
  write(office, tickets(office).filter((other) => other !== text));
}

function write(office, texts) {
  localStorage.setItem(TICKETS, JSON.stringify(texts.map((text) => ({ office, text }))));
}

// Draws what the service says. All of it goes in as text: no claim is ever read as HTML.

export const find = (id) => document.getElementById(id);

// An element with attributes and children. A child is an element or a text.
export function make(tag, attributes = {}, ...children) {
  const made = document.createElement(tag);
  for (const [name, value] of Object.entries(attributes)) {
    if (value === true) made.setAttribute(name, "");
    else if (value !== false) made.setAttribute(name, value);
  }
  made.append(...children);
  return made;
}

// A text of a claim, which cannot turn the direction of the text around it.
const said = (text) => make("bdi", {}, text);

// A digest, short. Pointing at it marks it at the other ends too.
function digestOf(digest) {
  return make("code", { class: "digest", "data-digest": digest, title: digest }, `${digest.slice(0, 10)}…`);
}

const claimOf = (row) => [make("strong", {}, said(row.label)), ": ", said(row.text)];

// A claim that Ada may show, with a box to tick and what the door gets of it.
export function choice(row, isChosen, isAsked) {
  const id = `choice${row.pointer}`;
  const box = make("input", { type: "checkbox", name: "show", id, value: row.pointer, checked: isChosen });
  const fate = make("span", { class: "fate" });
  const tell = () => {
    fate.textContent = box.checked ? "The door will see this." : "Hidden. The door gets only the digest.";
  };
  box.addEventListener("change", tell);
  tell();
  const asked = isAsked ? [" ", make("span", { class: "tag" }, "asked for")] : [];
  const label = make("label", { for: id }, ...claimOf(row), ...asked);
  const join = make("p", { class: "join" }, fate, " ", digestOf(row.digest));
  return make("li", { class: "choice" }, box, make("div", {}, label, join));
}

export function openClaim(row) {
  return make("li", {}, ...claimOf(row));
}

// What the door sees of a presentation, and what it cannot see.
export function seen(view, isAdmitted) {
  const shown = view.claims.map((row) => {
    const how = row.digest ? ["shown by the holder, signed as ", digestOf(row.digest)] : ["signed by the office"];
    return make("li", {}, ...claimOf(row), make("p", { class: "join" }, ...how));
  });
  const hidden = view.hidden.map((digest) => make("li", {}, "something, signed as ", digestOf(digest)));
  const nothing = make("li", { class: "nothing" }, "Nothing is hidden.");
  const text = make("ol", { class: "parts" }, ...parts(view));
  return [
    make("h3", {}, isAdmitted ? "What the door sees" : "What was sent, not to be believed"),
    make("ul", { class: "claims" }, ...shown),
    make("h3", {}, "What the door cannot see"),
    make("ul", { class: "claims hidden" }, ...(hidden.length ? hidden : [nothing])),
    make("details", {}, make("summary", {}, "The presentation as text"), text),
  ];
}

// The texts of a token, each with who made it and what it says. Digests in it are joined to their disclosures.
export function parts(view) {
  const digests = [...view.claims.map((row) => row.digest), ...view.hidden];
  return view.parts.map((part) => {
    const digest = part.digest ? [" has the digest ", digestOf(part.digest)] : [];
    const says = part.says.split(/"([\w-]+)"/).map((word, index) => {
      if (index % 2 === 0) return word;
      return digests.includes(word) ? digestOf(word) : `"${word}"`;
    });
    return make("li", {}, make("strong", {}, said(part.label)), ...digest,
      make("pre", {}, ...says), make("p", { class: "text" }, "As text: ", make("code", {}, part.text)));
  });
}

export function verdictOf(verdict) {
  const mark = make("span", { class: "mark", "aria-hidden": "true" }, verdict.admitted ? "✓" : "✕");
  const lines = [make("p", { class: "title" }, mark, " ", verdict.title), make("p", {}, verdict.why)];
  if (verdict.todo) lines.push(make("p", {}, make("strong", {}, "What to do: "), verdict.todo));
  if (verdict.line) lines.push(make("p", { class: "line" }, "The library said: ", make("code", {}, verdict.line)));
  return make("div", { class: verdict.admitted ? "verdict admitted" : "verdict refused" }, ...lines);
}

// A list of what an end remembers. Where there is nothing yet, it stays as the page has it.
export function list(id, rows, draw) {
  if (rows.length) find(id).replaceChildren(...rows.map((row) => make("li", {}, ...draw(row))));
}

export function registered(ticket) {
  const { event, name, seat, birthdate, until } = ticket;
  const rest = make("p", {}, said(name), ", seat ", said(seat), `, born ${birthdate}, until ${until}`);
  return [make("strong", {}, said(event)), rest];
}

// The digest that is pointed at is marked wherever it is.
document.addEventListener("pointerover", ({ target }) => {
  const digest = target.dataset?.digest;
  for (const other of document.querySelectorAll("[data-digest]")) {
    other.classList.toggle("same", digest !== undefined && other.dataset.digest === digest);
  }
});

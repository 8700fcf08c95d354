// The page: its forms, and what goes from one end to the next. What is accepted, the service decides, by the library.
import { choice, find, list, make, openClaim, parts, registered, seen, verdictOf } from "/draw.js";
import * as wallet from "/wallet.js";

const typed = ["event", "name", "seat", "born", "until", "nonce", "presented"];
const views = new Map();      // of each ticket, what is in it
let pair;                     // Ada's keys
let office;                   // the name of the office's key
let demand;                   // what the door asks for in this visit

// What the service said is wrong, maybe with the field.
class Problem extends Error {
  constructor({ problem, field }) {
    super(problem ?? "The service gave no answer.");
    this.field = field;
  }
}

async function request(path, form) {
  const sent = form && { method: "POST", headers: { "Content-Type": "application/json" }, body: JSON.stringify(form) };
  let answer;
  try {
    answer = await fetch(path, sent);
  } catch {
    throw new Problem({ problem: "The service does not answer. Is it still running?" });
  }
  const said = await answer.json().catch(() => ({}));
  if (!answer.ok) throw new Problem(said);
  return said;
}

// What was typed stays, also if the page is loaded again.
function remember() {
  sessionStorage.setItem("typed", JSON.stringify(Object.fromEntries(typed.map((id) => [id, find(id).value]))));
}

function restore() {
  const kept = JSON.parse(sessionStorage.getItem("typed") ?? "{}");
  find("until").value = `${new Date().getFullYear() + 1}-12-31`;
  for (const [id, value] of Object.entries(kept)) find(id).value = value;
}

// The claims that Ada ticked of a ticket.
const ticked = (ticket) => JSON.parse(sessionStorage.getItem(`ticked ${ticket}`) ?? "[]");

function clearFaults(form) {
  for (const fault of form.querySelectorAll(".fault")) fault.remove();
  for (const field of form.querySelectorAll("[aria-invalid]")) {
    field.removeAttribute("aria-invalid");
    field.removeAttribute("aria-errormessage");
  }
}

// Says what is wrong, at the field if there is one, which gets the focus.
function tellFault(form, problem) {
  const field = problem.field && form.elements[problem.field];
  if (!(field instanceof HTMLElement) || field.type === "radio") {
    say(form, problem.message);
    return;
  }
  const id = `${field.id}-fault`;
  field.after(make("p", { class: "fault", id }, problem.message));
  field.setAttribute("aria-invalid", "true");
  field.setAttribute("aria-errormessage", id);
  field.focus();
  say(form, `${form.querySelector(`label[for="${field.id}"]`).textContent}: ${problem.message}`);
}

function say(form, ...words) {
  form.querySelector(".said").replaceChildren(...words);
}

// Does what a form is for, once at a time.
function whenSent(id, work) {
  const form = find(id);
  form.addEventListener("submit", async (event) => {
    event.preventDefault();
    if (form.hasAttribute("aria-busy")) return;
    form.setAttribute("aria-busy", "true");
    clearFaults(form);
    say(form);
    try {
      await work(form);
    } catch (problem) {
      tellFault(form, problem);
    } finally {
      form.removeAttribute("aria-busy");
      remember();
    }
  });
}

async function viewOf(ticket) {
  if (!views.has(ticket)) views.set(ticket, (await request("/wallet/look", { ticket })).view);
  return views.get(ticket);
}

async function drawOffice() {
  const state = await request("/office");
  office = state.kid;
  list("register", state.tickets, registered);
}

async function drawDoor() {
  const state = await request("/door");
  list("verdicts", state.verdicts, (verdict) => [make("time", {}, verdict.at), ` ${verdict.title}`]);
}

function chosenTicket() {
  const box = find("show").querySelector("[name=ticket]:checked");
  if (!box) throw new Problem({ problem: "There is no ticket in the wallet. Get one at the office." });
  return box.value;
}

const textOf = (view, pointer) => view.claims.find((row) => row.pointer === pointer)?.text ?? "?";

async function drawTickets(wanted) {
  const kept = wallet.tickets(office);
  const chosen = kept.includes(wanted) ? wanted : kept[0];
  const cards = [];
  for (const [index, ticket] of kept.entries()) {
    const view = await viewOf(ticket);
    const id = `ticket${index}`;
    const box = make("input", { type: "radio", name: "ticket", id, value: ticket, checked: ticket === chosen });
    box.addEventListener("change", () => drawTicket(ticket));
    const about = [make("bdi", {}, textOf(view, "/event")), ", seat ", make("bdi", {}, textOf(view, "/seat"))];
    const until = make("small", {}, `until ${textOf(view, "/exp")}`);
    cards.push(make("div", { class: "ticket" }, box, make("label", { for: id }, ...about, make("br"), until)));
  }
  const nothing = make("p", { class: "nothing" }, "No ticket yet. Get one at the office.");
  find("tickets").replaceChildren(find("tickets").querySelector("legend"), ...(cards.length ? cards : [nothing]));
  await drawTicket(chosen);
}

// Of the chosen ticket what Ada may show, and what is in each presentation of it.
async function drawTicket(ticket) {
  const isChosen = ticket !== undefined;
  for (const id of ["claims", "ticket-text", "remove"]) find(id).hidden = !isChosen;
  find("show-button").disabled = !isChosen;
  sessionStorage.setItem("ticket", ticket ?? "");
  if (!isChosen) return;
  const view = await viewOf(ticket);
  const [shown, open] = [view.claims.filter((row) => row.digest), view.claims.filter((row) => !row.digest)];
  const [before, asked] = [ticked(ticket), `/${demand.claim}`];
  const choices = shown.map((row) => choice(row, before.includes(row.pointer), row.pointer === asked));
  find("choices").replaceChildren(...choices);
  find("open").replaceChildren(...open.map(openClaim));
  find("ticket-text").querySelector("ol").replaceChildren(...parts(view));
}

async function newVisit() {
  demand = await request("/door/ask", {});
  find("nonce").value = demand.nonce;
}

async function issue(form) {
  const fields = Object.fromEntries(new FormData(form));
  const { ticket } = await request("/office/issue", { ...fields, holder: await wallet.publicKey(pair) });
  wallet.keep(office, ticket);
  await drawOffice();
  await drawTickets(ticket);
  say(form, "Issued. The ticket is in Ada’s wallet. ", make("a", { href: "#wallet-title" }, "Go to the wallet"));
}

// A visitor comes to the door, which gives a nonce. The ticket is laid out by the service and signed in this browser.
async function present(keys) {
  const ticket = chosenTicket();
  await newVisit();
  const chosen = [...find("show").querySelectorAll("[name=show]:checked")].map((box) => box.value);
  const asked = { ticket, show: chosen, audience: demand.audience, nonce: demand.nonce };
  const { sign, at } = await request("/wallet/present", asked);
  const signature = await wallet.sign(keys, sign);
  find("presented").value = (await request("/wallet/present", { ...asked, at, signature })).presentation;
  find("presented").scrollTop = 0;
  find("verdict").replaceChildren();
  find("seen").replaceChildren();
  return chosen.length;
}

async function show(form) {
  const count = await present(pair);
  const claims = count === 1 ? "one claim" : `${count || "no"} claims`;
  say(form, `Signed for this visit, with ${claims}. `, make("a", { href: "#door-title" }, "Go to the door"));
}

async function admit(form) {
  const { verdict, view } = await request("/door/admit", Object.fromEntries(new FormData(form)));
  find("verdict").replaceChildren(verdictOf(verdict));
  find("seen").replaceChildren(...(view ? seen(view, verdict.admitted) : []));
  await drawDoor();
}

// What a thief might try. What comes of it, the door says.
const tricks = {
  copy: newVisit,
  async change() {
    await present(pair);
    const parts = find("presented").value.split("~");
    const changed = parts.length > 2 ? 1 : 0;       // the first claim that is shown, or else the signed part
    const letter = parts[changed][30];
    parts[changed] = `${parts[changed].slice(0, 30)}${letter === "A" ? "B" : "A"}${parts[changed].slice(31)}`;
    find("presented").value = parts.join("~");
  },
  async stranger() {
    await present(await wallet.makeKey());
  },
};

async function cheat(trick) {
  try {
    await trick();
    find("admit").requestSubmit();
  } catch (problem) {
    say(find("admit"), problem.message);
  }
}

async function removeTicket() {
  wallet.remove(office, chosenTicket());
  await drawTickets();
  say(find("show"), "Removed.");
  find("wallet-title").focus();
}

function listen() {
  for (const id of typed) find(id).addEventListener("input", remember);
  find("choices").addEventListener("change", () => {
    const chosen = [...find("choices").querySelectorAll(":checked")].map((box) => box.value);
    sessionStorage.setItem(`ticked ${chosenTicket()}`, JSON.stringify(chosen));
  });
  whenSent("issue", issue);
  whenSent("show", show);
  whenSent("admit", admit);
  for (const [id, trick] of Object.entries(tricks)) find(id).addEventListener("click", () => cheat(trick));
  find("remove").addEventListener("click", removeTicket);
}

async function start() {
  listen();
  restore();
  if (!globalThis.crypto?.subtle) throw new Problem({ problem: "This browser signs only at http://localhost." });
  pair = await wallet.openKey();
  await drawOffice();
  await drawDoor();
  const before = find("nonce").value;
  await newVisit();
  if (before) find("nonce").value = before;
  await drawTickets(sessionStorage.getItem("ticket") ?? undefined);
  document.documentElement.dataset.ready = "yes";
}

start().catch((problem) => {
  find("trouble").hidden = false;
  find("trouble").textContent = problem.message;
});

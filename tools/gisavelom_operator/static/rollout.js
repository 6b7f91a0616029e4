// A rollout at a server, and its agents in the order in which they joined.
import { ask, bar, byId, element, members, renewing, shade, showProblems, turnPages } from "/page.js";

const [server, id] = location.pathname.split("/").slice(2).map(decodeURIComponent);
const COLUMNS = { uid: "Agent", host: "Host", service: "Service", offer: "Offer", state: "State", health: "Health", age: "Age", configuration: "Configuration", error: "Error" };
const KINDS = ["applied", "failed", "offered", "waiting"];
const ROWS = 200;
const RENEWED = 2000; // milliseconds
const asked = { offer: "", from: 0, count: ROWS };

function offerButton(kind, number, words) {
    const attributes = { type: "button", "aria-pressed": String(asked.offer === kind) };
    const key = kind ? [element("span", { class: "key " + kind }), " "] : [];
    const button = element("button", attributes, ...key, `${words} ${number}`);
    button.addEventListener("click", () => {
        asked.offer = kind;
        asked.from = 0;
        renew();
    });
    return button;
}

function cell(row, name) {
    const text = row[name] === "none" ? "-" : row[name];
    if (name === "uid") return element("td", { class: "uid" }, element("a", { href: "/agent/" + encodeURIComponent(text) }, text));
    return element("td", { class: ["host", "service", "error"].includes(name) ? "text" : "short " + shade(row[name]) }, text);
}

function show(told) {
    const last = told.from + told.rows.length;
    byId("state").replaceChildren(element("span", { class: shade(told.state) }, told.state), ` at ${server}, ${members(told)} agents`);
    byId("progress").replaceChildren(bar(told));
    byId("offers").replaceChildren(offerButton("", members(told), "all"), ...KINDS.map((kind) => offerButton(kind, told[kind], kind)));
    byId("range").textContent = told.found ? `${told.from + 1} to ${last} of ${told.found}` : "none";
    byId("former").disabled = told.from === 0;
    byId("next").disabled = last >= told.found;
    byId("heads").replaceChildren(...Object.values(COLUMNS).map((head) => element("th", { scope: "col" }, head)));
    byId("rows").replaceChildren(...told.rows.map((row) => element("tr", {}, ...Object.keys(COLUMNS).map((name) => cell(row, name)))));
}

byId("title").textContent = `Rollout ${id}`;
document.title = `Rollout ${id}`;

let shown = "";
const renew = renewing(async (isLatest) => {
    const told = await ask(`/data/rollout/${encodeURIComponent(server)}/${encodeURIComponent(id)}?` + new URLSearchParams(asked));
    if (!isLatest()) return;
    showProblems(told.problems);
    const text = JSON.stringify([told, asked]);
    if (text !== shown) show(told);
    shown = text;
}, RENEWED);

turnPages(asked, ROWS, renew);

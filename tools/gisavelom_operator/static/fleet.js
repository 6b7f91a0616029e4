// The fleet's table. The server of the page searches, sorts and cuts it, so that only the rows that are seen are sent.
import { ask, bar, byId, element, members, renewing, shade, showProblems, turnPages } from "/page.js";

const COLUMNS = {
    uid: "Agent",
    host: "Host",
    service: "Service",
    version: "Version",
    state: "State",
    health: "Health",
    number: "Report",
    age: "Age",
    unheard: "Silent for",
    configuration: "Configuration",
    packages: "Packages",
    server: "Server",
};
const ROWS = 200;
const RENEWED = 2000; // milliseconds
const asked = { search: "", sort: "uid", order: "up", from: 0, count: ROWS };
let severalServers = false;
// Whether each server tells how long ago reports were taken; else it is shown too for how long the page saw none.
let withAges = true;

function columns() {
    const left = [severalServers ? "" : "server", withAges ? "unheard" : ""];
    return Object.keys(COLUMNS).filter((name) => !left.includes(name));
}

function showHeads() {
    const sign = { up: " ▲", down: " ▼" };
    byId("heads").replaceChildren(...columns().map((name) => {
        const button = element("button", { type: "button" }, COLUMNS[name] + (asked.sort === name ? sign[asked.order] : ""));
        button.addEventListener("click", () => {
            asked.order = asked.sort === name && asked.order === "up" ? "down" : "up";
            asked.sort = name;
            asked.from = 0;
            renew();
        });
        return element("th", { scope: "col" }, button);
    }));
}

function cell(row, name) {
    const text = row[name] === "none" ? "-" : row[name];
    if (name === "uid") return element("td", { class: "uid" }, element("a", { href: "/agent/" + encodeURIComponent(text) }, text));
    const shaded = ["state", "health", "configuration", "packages"].includes(name);
    const kind = ["host", "service"].includes(name) ? "text" : ["version", "packages"].includes(name) ? "" : "short";
    const title = name === "age" && text.endsWith("!") ? { title: "the WebSocket that carried its last report is closed" } : {};
    return element("td", { class: `${kind} ${shaded ? shade(row[name]) : ""}`, ...title }, text);
}

function rolloutRow(rollout) {
    const paled = rollout.silent ? { class: "silent", title: `its server was last heard ${rollout.silent} s ago` } : {};
    const address = `/rollout/${encodeURIComponent(rollout.server)}/${encodeURIComponent(rollout.id)}`;
    const rest = ["offered", "failed"].filter((kind) => rollout[kind]).map((kind) => `, ${rollout[kind]} ${kind}`).join("");
    return element("tr", paled,
        element("td", {}, element("a", { href: address }, rollout.id)),
        element("td", { class: shade(rollout.state) }, rollout.state),
        element("td", { class: "wide" }, bar(rollout)),
        element("td", {}, `${rollout.applied} of ${members(rollout)} applied${rest}`),
        ...(severalServers ? [element("td", {}, rollout.server)] : []));
}

function show(told) {
    severalServers = told.servers.length > 1;
    withAges = told.ages;
    const last = told.from + told.rows.length;
    byId("counts").textContent = `${told.agents} agents, ${told.here} here, ${told.agents - told.here} left, `
        + `${told.unhealthy} here and unhealthy, ${told.failed} with a failed configuration`;
    byId("range").textContent = told.found ? `${told.from + 1} to ${last} of ${told.found}` : "none found";
    byId("former").disabled = told.from === 0;
    byId("next").disabled = last >= told.found;
    byId("rollouts").hidden = told.rollouts.length === 0;
    byId("rollout-rows").replaceChildren(...told.rollouts.map(rolloutRow));
    showHeads();
    byId("rows").replaceChildren(...told.rows.map((row) => {
        const paled = row.silent ? { class: "silent", title: `its server was last heard ${row.silent} s ago` } : {};
        return element("tr", paled, ...columns().map((name) => cell(row, name)));
    }));
}

let shown = "";
const renew = renewing(async (isLatest) => {
    const told = await ask("/data/fleet?" + new URLSearchParams(asked));
    if (!isLatest()) return;
    showProblems(told.problems);
    const text = JSON.stringify([told, asked]);
    if (text !== shown) show(told);
    shown = text;
}, RENEWED);

byId("search").addEventListener("input", (event) => {
    asked.search = event.target.value;
    asked.from = 0;
    renew();
});
turnPages(asked, ROWS, renew);

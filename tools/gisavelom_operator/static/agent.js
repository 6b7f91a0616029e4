// An agent's page, and the form that offers it a configuration.
import { ask, byId, element, renewing, shade, showProblems } from "/page.js";

const uid = decodeURIComponent(location.pathname.split("/")[2]);
const RENEWED = 1000; // milliseconds
const offer = { hash: "", name: "" };

function pairs(told) {
    const list = element("dl");
    for (const [name, value] of told.filter(([, text]) => text !== "" && text !== undefined)) {
        list.append(element("dt", {}, name), value instanceof Node ? value : element("dd", {}, value));
    }
    return list;
}

function section(title, ...children) {
    return element("section", {}, element("h2", {}, title), ...children);
}

function shaded(word, ...more) {
    return element("dd", {}, element("span", { class: shade(word) }, word), more.filter(Boolean).map((text) => ", " + text).join(""));
}

function health(name, told) {
    const state = told.healthy ? "healthy" : "unhealthy";
    const words = [told.status, told.error, told.started && "since " + told.started].filter(Boolean);
    const line = element("span", {}, name + ": ", element("span", { class: shade(state) }, state), words.map((word) => ", " + word).join(""));
    const parts = Object.entries(told.parts);
    return element("li", {}, line, ...(parts.length ? [element("ul", {}, ...parts.map(([part, below]) => health(part, below)))] : []));
}

function packageTable(packages) {
    const heads = ["Name", "Status", "Version", "Offered", "Error"].map((head) => element("th", {}, head));
    const rows = packages.map((each) => element("tr", {},
        element("td", {}, each.name), element("td", { class: each.status === "failed" ? "bad" : "" }, each.status),
        element("td", {}, each.version), element("td", {}, each.offered_version), element("td", {}, each.error)));
    return element("table", {}, element("thead", {}, element("tr", {}, ...heads)), element("tbody", {}, ...rows));
}

function file(told) {
    const head = `${told.name || "(no name)"}, ${told.type || "no type"}, ${told.bytes} bytes${told.cut ? ", of which the beginning is shown" : ""}`;
    const content = element("pre", {}, told.text ?? "hex " + told.hex);
    const parts = [element("p", {}, head), content];
    if (told.text !== undefined && !told.cut) {
        const button = element("button", { type: "button" }, "Take it into the form");
        button.addEventListener("click", () => {
            byId("name").value = told.name || "config";
            byId("type").value = told.type;
            byId("content").value = told.text;
            byId("file").value = "";
        });
        parts.push(button);
    }
    return element("div", {}, ...parts);
}

function show(told) {
    const name = told.service.name;
    byId("title").textContent = name ? `${name} ${told.service.version}` : uid;
    document.title = name || uid;
    byId("incapable").hidden = told.takes_configurations;
    const parts = [section("State", pairs([
        ["agent", element("dd", { class: "mono" }, told.uid)],
        ["server", told.server],
        ["state", shaded(told.state)],
        ["health", shaded(told.health)],
        ["last report", [told.number, told.age].filter(Boolean).join(", ")],
        ["configuration", shaded(told.configuration.status, told.configuration.error, told.configuration.hash && "hash " + told.configuration.hash)],
        ["capabilities", told.capabilities.join(", ")],
        ["custom capabilities", told.custom_capabilities.join(", ")],
        ["hash of components", told.components_hash],
    ]))];
    const attributes = [...Object.entries(told.identifying_attributes), ...Object.entries(told.non_identifying_attributes)];
    if (attributes.length) parts.push(section("Attributes", pairs(attributes)));
    if (told.health_tree) parts.push(section("Health", element("ul", { class: "tree" }, health("agent", told.health_tree))));
    if (told.packages.packages.length || told.packages.error) {
        parts.push(section("Packages", element("p", { class: "bad" }, told.packages.error), packageTable(told.packages.packages)));
    }
    parts.push(section("Effective configuration", ...(told.effective_configuration.length
        ? told.effective_configuration.map(file) : [element("p", { class: "pale" }, "It tells none.")])));
    byId("details").replaceChildren(...parts);
}

const OUTCOMES = {
    waiting: "waits for the agent's next report",
    applying: "is being applied",
    applied: "is applied",
    failed: "failed",
};

function showOutcome(told) {
    if (!told.offer) return;
    const error = told.offer === "failed" && told.configuration.error ? ": " + told.configuration.error : "";
    byId("outcome").className = shade(told.offer);
    byId("outcome").textContent = `${offer.name} ${OUTCOMES[told.offer]}${error} (hash ${offer.hash.slice(0, 12)}…)`;
}

let shown = "";
const renew = renewing(async (isLatest) => {
    const told = await ask("/data/agent/" + encodeURIComponent(uid) + "?" + new URLSearchParams({ offer: offer.hash }));
    if (!isLatest()) return;
    showProblems([]);
    const { number, age, ...rest } = told;
    const text = JSON.stringify(rest);
    // Where nothing but the number and its age is new the page stays, with what is selected in it.
    if (text !== shown || !getSelection().toString()) show(told);
    shown = text;
    showOutcome(told);
}, RENEWED);

function base64(bytes) {
    let text = "";
    for (let at = 0; at < bytes.length; at += 32768) text += String.fromCharCode(...bytes.subarray(at, at + 32768));
    return btoa(text);
}

async function content() {
    const chosen = byId("file").files[0];
    return base64(chosen ? new Uint8Array(await chosen.arrayBuffer()) : new TextEncoder().encode(byId("content").value));
}

byId("file").addEventListener("change", () => {
    const chosen = byId("file").files[0];
    if (chosen) byId("name").value = chosen.name;
});

byId("offer").addEventListener("submit", async (event) => {
    event.preventDefault();
    const outcome = byId("outcome");
    outcome.className = "";
    outcome.textContent = "…";
    try {
        const name = byId("name").value;
        const told = await ask("/data/config", {
            method: "POST",
            headers: { "Content-Type": "application/json", "X-Operator-Token": document.querySelector("meta[name=token]").content },
            body: JSON.stringify({ uid, name, type: byId("type").value, content: await content() }),
        });
        offer.hash = told.hash;
        offer.name = name;
        renew();
    } catch (problem) {
        outcome.className = "bad";
        outcome.textContent = problem.message;
    }
});

// What both pages use. What agents told is put into the document as text alone, never as HTML.

/** An element with attributes, and children that are elements or texts. */
export function element(name, attributes = {}, ...children) {
    const made = document.createElement(name);
    for (const [attribute, value] of Object.entries(attributes)) made.setAttribute(attribute, value);
    made.append(...children.map((child) => (child instanceof Node ? child : document.createTextNode(String(child)))));
    return made;
}

export function byId(id) {
    return document.getElementById(id);
}

/** Asks the page's server; an answer other than 200 is an error with its words. */
export async function ask(path, options = {}) {
    let answer;
    try {
        answer = await fetch(path, options);
    } catch {
        throw new Error("The program that serves this page doesn't answer.");
    }
    const told = await answer.json();
    if (!answer.ok) throw new Error(told.problem);
    return told;
}

export function showProblems(problems) {
    byId("problems").replaceChildren(...problems.map((problem) => element("li", {}, problem)));
}

/** A rollout's bar: how many of its agents applied the offer, failed it, have it, and wait. */
export function bar(rollout) {
    const kinds = ["applied", "failed", "offered", "waiting"];
    const words = kinds.map((kind) => `${rollout[kind]} ${kind}`).join(", ");
    const made = element("div", { class: "progress", role: "img", "aria-label": words, title: words });
    for (const kind of kinds.filter((kind) => rollout[kind])) {
        const part = element("span", { class: "part " + kind });
        part.style.flexGrow = rollout[kind];
        made.append(part);
    }
    return made;
}

/** How many agents joined a rollout. */
export function members(rollout) {
    return rollout.waiting + rollout.offered + rollout.applied + rollout.failed;
}

/** How a word of a state or status is coloured. */
export function shade(word) {
    if (/^(healthy|applied|over)$|^\d+ installed$/.test(word)) return "good";
    if (/unhealthy|failed|halted/.test(word)) return "bad";
    if (/^(left|unknown|none|unset|-|\?)$/.test(word)) return "pale";
    return "";
}

/** Does the work again and again, so many milliseconds behind its end; a call of what it gives does it at once. */
export function renewing(work, milliseconds) {
    let timer;
    let turn = 0;
    const again = async () => {
        clearTimeout(timer);
        const mine = ++turn;
        try {
            await work(() => mine === turn);
        } catch (problem) {
            if (mine === turn) showProblems([problem.message]);
        }
        if (mine === turn) timer = setTimeout(again, milliseconds);
    };
    again();
    return again;
}

// The buttons of a table of which so many rows are shown at a time: from `asked.from` on.
export function turnPages(asked, rows, renew) {
    byId("former").addEventListener("click", () => {
        asked.from = Math.max(0, asked.from - rows);
        renew();
    });
    byId("next").addEventListener("click", () => {
        asked.from += rows;
        renew();
    });
}

"use strict";
// Steps through a run. `run` has each distinct line once; blocks name lines by number, and steps name blocks.
const run = JSON.parse(document.getElementById("run").textContent);
const part = (id) => document.getElementById(id);
const escaped = (text) => text.replace(/&/g, "&amp;").replace(/</g, "&lt;").replace(/>/g, "&gt;");
const nodes = Array.from(document.querySelectorAll("[data-node]"));
const labels = Array.from(document.querySelectorAll("[data-label]"));
const edges = Array.from(document.querySelectorAll("[data-edge]"));
const MOST = 300;
const COLUMN = 72;
// How long packets move, and how many of them, and how long a step is shown, in milliseconds.
const MOVE = 900;
const PACKETS = 60;
const PAUSE = 1000;
let now = 0;
// The part of the report that is shown: a router by its name, a link or LAN as `link NAME`, or all.
let chosen = run.routers.length > 8 ? run.routers[0] : "";
let timer = null;
let whole = false;
let frame = 0;

function linesOf(step, name) {
    return run.blocks[step.blocks[run.parts.indexOf(name)]].map((line) => run.lines[line]);
}

// The part of the report that a node or the lines of an edge stand for.
function partOf(element) {
    const name = element.getAttribute("data-node") || "/" + element.getAttribute("data-label").split("/")[0];
    return name[0] === "/" ? "link " + name.slice(1) : name;
}

// ---- the picture

function marked(element, classes, isMoved, isChosen) {
    element.setAttribute("class", classes + (isMoved ? " moved" : "") + (isChosen ? " chosen" : ""));
}

function drawPicture(step, before) {
    nodes.forEach((node, place) => {
        const name = node.getAttribute("data-node");
        const look = run.nodeLooks[step.nodes[place]];
        const slots = Array.from(node.children).filter((it) => it.tagName.toLowerCase() === "g");
        slots.forEach((slot, at) => {
            const [kind, text] = look[at] || ["note", ""];
            slot.setAttribute("class", kind);
            slot.children[1].textContent = text;
        });
        marked(node, name[0] === "/" ? "node lan" : "node", step.nodes[place] !== before.nodes[place], partOf(node) === chosen);
    });
    edges.forEach((edge, place) => {
        edge.setAttribute("class", "edge " + run.edgeLooks[step.edges[place]][0]);
    });
    labels.forEach((label, place) => {
        const lines = run.edgeLooks[step.edges[place]][1];
        Array.from(label.children).slice(1).forEach((text, at) => {
            text.textContent = lines[at] || "";
        });
        marked(label, "label", step.edges[place] !== before.edges[place], partOf(label) === chosen);
    });
}

// ---- packets that move along links

const isStill = matchMedia("(prefers-reduced-motion: reduce)");

// The ways of a datagram to its receivers: paths, each from its start or from its end, and whether it arrives.
function waysOf(row) {
    const link = run.links.find((it) => it.name === row.it.link);
    const pathOf = (name) => edges.find((edge) => edge.getAttribute("data-edge") === name).querySelector("path");
    if (row.from === null) {
        return [];
    }
    return row.ends.map(([name, state]) => ({
        isLost: state !== "taken",
        parts: link.isLan ? [[pathOf(`${link.name}/${row.from}`), false], [pathOf(`${link.name}/${name}`), true]]
            : [[pathOf(link.name), row.from === [...link.members].sort()[0]]],
    }));
}

function pointOf(way, share) {
    const place = Math.min(share * way.parts.length, way.parts.length - 0.001);
    const [path, isForward] = way.parts[Math.floor(place)];
    const along = isForward ? place % 1 : 1 - (place % 1);
    return path.getPointAtLength(along * path.getTotalLength());
}

function kindOf(row) {
    const word = (run.lines[row.it.shown[0]] || "").split(" ")[2] || "";
    return ["lsp", "snp"].find((kind) => word.includes(kind)) || "hello";
}

function movePackets(step) {
    cancelAnimationFrame(frame);
    document.querySelectorAll(".packet").forEach((it) => it.remove());
    if (isStill.matches || !edges.length) {
        return;
    }
    const rows = rowsOf(step).slice(0, PACKETS);
    const packets = rows.flatMap((row, at) => waysOf(row).map((way) => {
        const drawn = document.createElementNS("http://www.w3.org/2000/svg", "circle");
        drawn.setAttribute("class", "packet " + kindOf(row));
        drawn.setAttribute("r", "6");
        return { way, drawn, begins: (at / rows.length) * 0.5 };
    }));
    const begun = performance.now();
    const move = (time) => {
        const share = (time - begun) / MOVE;
        for (const { way, drawn, begins } of packets) {
            const passed = (share - begins) * 2;
            const isSeen = passed >= 0 && passed < (way.isLost ? 0.6 : 1);
            if (isSeen) {
                const point = pointOf(way, passed);
                drawn.setAttribute("cx", point.x);
                drawn.setAttribute("cy", point.y);
                edges[0].parentNode.append(drawn);
            } else {
                drawn.remove();
            }
        }
        frame = share < 1 ? requestAnimationFrame(move) : 0;
    };
    frame = packets.length ? requestAnimationFrame(move) : 0;
}

// ---- packets to an address

// What becomes of a packet from each router: its way, by the lines of `isis trace`, and the router that it is handed to first.
function packetsOf(step) {
    return step.traces.map((trace, place) => {
        const lines = run.traces[trace].map((line) => run.lines[line].split(" "));
        const [fate, at] = [lines[0][3], lines.filter(([word]) => word === "at")];
        const [last, round] = [at[at.length - 1], lines.find(([word]) => word === "round")];
        const names = at.map((words) => words[1]).concat(round ? [round[1]] : []);
        const why = { arrives: `cost ${at[0][4]}`, loops: "", lost: last[2] === "no-route" ? `no route at ${last[1]}` : `no router ${last[6]}` }[fate];
        const ends = lines[lines.length - 1].slice(1).filter((word) => word !== fate);
        const others = ends.length ? `; by another next hop of equal cost: ${ends.join(" or ")}` : "";
        return { from: run.routers[place], names, fate, words: `${fate}${why ? ", " : ""}${why}${others}`, next: at[0][5] === "to" ? at[0][6] : null };
    });
}

// An arrow on the link over which a router hands the packet on; of two links to one router, on the first.
function drawHand({ from, next, fate, words }) {
    const link = run.links.find(({ members }) => members.includes(from) && members.includes(next));
    if (!link) {
        return;
    }
    const path = edges.find((edge) => edge.getAttribute("data-edge") === (link.isLan ? `${link.name}/${from}` : link.name)).querySelector("path");
    const isForward = !link.isLan && from === [...link.members].sort()[0];
    const at = (share) => path.getPointAtLength((isForward ? share : 1 - share) * path.getTotalLength());
    const [here, ahead] = [at(0.36), at(0.4)];
    const drawn = document.createElementNS("http://www.w3.org/2000/svg", "path");
    drawn.setAttribute("class", "hand " + fate);
    drawn.setAttribute("d", "M12 0 L-6 -8 L-6 8 Z");
    drawn.setAttribute("transform", `translate(${here.x} ${here.y}) rotate(${Math.atan2(ahead.y - here.y, ahead.x - here.x) * 180 / Math.PI})`);
    drawn.innerHTML = `<title>${escaped(`${from} hands it to ${next}: ${words}`)}</title>`;
    edges[0].parentNode.append(drawn);
}

function drawPackets(step, before) {
    document.querySelectorAll(".hand").forEach((it) => it.remove());
    const earlier = packetsOf(before);
    const rows = packetsOf(step).map((it, place) => {
        drawHand(it);
        const isNow = it.names.join(" ") + it.words !== earlier[place].names.join(" ") + earlier[place].words;
        return `<tr class="${isNow ? "now" : ""}"><td>${it.names.map(escaped).join(" \u2192 ")}</td><td class="${it.fate}">${escaped(it.words)}</td></tr>`;
    });
    part("to").textContent = run.to ? `Packets to ${run.to}` : "";
    part("packets").innerHTML = run.to ? `<table>${rows.join("")}</table>` : "";
}

// ---- the table of LSPs

// An LSP ID with its router's name in place of the system, where the script has that system.
function lspName(id) {
    const system = id.slice(0, 14);
    return Object.hasOwn(run.systems, system) ? run.systems[system] + id.slice(14) : id;
}

// What each router holds at a level: LSP ID, then router, then sequence number and state.
function heldAt(step, level) {
    const held = new Map();
    for (const name of run.routers) {
        for (const [word, , itsLevel, id, number, state] of linesOf(step, name).map((line) => line.split(" "))) {
            if (itsLevel === level && (word === "lsp" || word === "letgo")) {
                const copies = held.get(id) || new Map();
                held.set(id, copies.set(name, word === "lsp" ? { number: Number(number), isPurged: state === "purged" } : copies.get(name) || null));
            }
        }
    }
    return new Map([...held].sort(([one], [other]) => (one < other ? -1 : 1)));
}

// Of two copies of an LSP the one with the greater number is newer, and of one number the purged one.
const isNewer = (one, other) => one.number > other.number || (one.number === other.number && one.isPurged && !other.isPurged);

function lspCell(held, newest, before) {
    const text = held ? held.number + (held.isPurged ? " purged" : "") : held === null ? "forgotten" : "\u2013";
    const kind = !held ? "missing" : newest && isNewer(newest, held) ? "older" : "newest";
    const isNow = JSON.stringify(held) !== JSON.stringify(before);
    const label = kind === "older" ? ` aria-label="${text}, older"` : text === "\u2013" ? ' aria-label="not held"' : "";
    return `<td class="${kind}${isNow ? " now" : ""}"${label}>${text}</td>`;
}

function lspTable(step, before, level) {
    const held = heldAt(step, level);
    const earlier = heldAt(before, level);
    const names = run.routers.filter((name) => run.levels[name].includes(level));
    const rows = [...held].map(([id, copies]) => {
        const newest = [...copies.values()].filter((it) => it).reduce((one, it) => (!one || isNewer(it, one) ? it : one), null);
        const cells = names.map((name) => lspCell(copies.get(name), newest, (earlier.get(id) || new Map()).get(name)));
        return `<tr><th scope="row" title="${id}">${escaped(lspName(id))}</th>${cells.join("")}</tr>`;
    });
    const heads = names.map((name) => `<th scope="col">${escaped(name)}</th>`).join("");
    return rows.length ? `<table><caption>${level}: sequence numbers</caption><tr><th scope="col">LSP</th>${heads}</tr>${rows.join("")}</table>` : "";
}

function drawLsps(step, before) {
    const tables = ["L1", "L2"].map((level) => lspTable(step, before, level)).join("");
    part("lsps").innerHTML = tables ? `<div>${tables}</div>` + '<p class="soft">A marked field has an older copy than another router; a frame, what this step changed.</p>' : "<p>none</p>";
}

// ---- the report

// A line with the names of routers in place of the systems after `via` and `sees`.
function named(line) {
    const words = line.split(" ");
    const from = words.findIndex((word) => word === "via" || word === "sees");
    const isSystem = (word, at) => from >= 0 && at > from && Object.hasOwn(run.systems, word);
    return words.map((word, at) => isSystem(word, at) ? `<span title="${word}">${escaped(run.systems[word])}</span>` : escaped(word)).join(" ");
}

// Below the line of a link: of which LSP IDs there are flags at each end, and which an end holds newer than the other.
function behind(line) {
    const [word, name, level, state] = line.split(" ");
    if (word !== "link" || state !== "up") {
        return "";
    }
    const { members } = run.links.find((link) => link.name === name);
    const listed = (what, ids) => ids.length ? [`<div class="under">${what} ${ids.map(lspName).map(escaped).join(", ")}</div>`] : [];
    const flags = run.steps[now].flags[`${name} ${level}`] || [[], []];
    const held = heldAt(run.steps[now], level);
    const ahead = members.map((own, at) => [...held].filter(([, copies]) => {
        const [its, other] = [copies.get(own), copies.get(members[1 - at])];
        return its && (other === undefined || other && isNewer(its, other));
    }).map(([id]) => id));
    return members.flatMap((own, at) => [...listed(`flags at ${own}:`, flags[at]), ...listed(`${own} ahead in`, ahead[at])]).join("");
}

function lineParts(lines, earlier) {
    const had = new Set(earlier);
    const has = new Set(lines);
    const here = lines.map((line) => `<div class="line${had.has(line) ? "" : " new"}">${named(line)}</div>${behind(line)}`);
    return here.concat(earlier.filter((line) => !has.has(line)).map((line) => `<div class="line gone">${named(line)}</div>`));
}

// What a router's lines are about, and the words that they begin with; its neighbours are in the lines of its links and LANs.
const ABOUT = [["Router", ["router"]], ["LSPs", ["lsp", "letgo"]], ["Neighbours", ["link", "lan"]], ["Routes", ["route"]], ["Drops", ["drop"]]];

function routerLines(step, name) {
    return linesOf(step, name).concat(...run.links.filter((link) => link.members.includes(name)).map((link) => linesOf(step, "link " + link.name)));
}

function drawReport(step, before) {
    let parts = [];
    if (run.routers.includes(chosen)) {
        const lines = routerLines(step, chosen);
        const earlier = routerLines(before, chosen);
        for (const [title, words] of ABOUT) {
            const such = (line) => words.includes(line.split(" ")[0]);
            const found = lineParts(lines.filter(such), earlier.filter(such));
            parts = parts.concat(found.length ? [`<h2>${title}</h2>`] : [], found);
        }
    } else {
        for (const name of chosen ? [chosen] : run.parts) {
            parts = parts.concat(lineParts(linesOf(step, name), linesOf(before, name)));
        }
    }
    part("report").innerHTML = parts.join("");
    part("of").value = chosen;
}

// ---- the ladder

function rowsOf(step) {
    const rows = [];
    for (const row of step.rows) {
        if (row.sent) {
            for (let at = row.sent[0]; at < row.sent[1]; at++) {
                rows.push({ it: run.datagrams[at], from: run.datagrams[at].from, ends: run.datagrams[at].ends, word: "" });
            }
        } else if (row.deliver) {
            const it = run.datagrams[row.deliver - 1];
            rows.push({ it, from: it.from, ends: [[row.to, "taken"]], word: "delivered now, sent at " });
        } else {
            rows.push({ it: row.inject, from: null, ends: [[row.inject.to, "taken"]], word: "injected at " });
        }
    }
    return rows;
}

function arrow(from, to, state, y) {
    const way = Math.sign(to - from);
    if (state === "lost") {
        const end = from + (to - from) * 0.6;
        const cross = `<path class="way" fill="none" d="M${end - 4} ${y - 4} l8 8 m0 -8 l-8 8"/>`;
        return `<line class="way lost" x1="${from}" y1="${y}" x2="${end}" y2="${y}"/>${cross}`;
    }
    const tip = state === "taken" ? `<polygon points="${to},${y} ${to - 8 * way},${y - 4} ${to - 8 * way},${y + 4}"/>` : "";
    return `<line class="way ${state}" x1="${from}" y1="${y}" x2="${to - 2 * way}" y2="${y}"/>${tip}`;
}

function ladderRow(row, names) {
    const place = (name) => names.indexOf(name) * COLUMN + COLUMN;
    const height = Math.max(38, 10 + 10 * row.ends.length);
    const from = row.from === null ? place(row.ends[0][0]) - COLUMN * 0.6 : place(row.from);
    const lives = names.map((name) => `<line x1="${place(name)}" y1="0" x2="${place(name)}" y2="${height}"/>`).join("");
    const arrows = row.ends.map(([name, state], at) => arrow(from, place(name), state, 10 + 10 * at)).join("");
    const start = row.from === null ? "" : `<circle cx="${from}" cy="10" r="3"/>`;
    const told = row.ends.map(([name, state]) => (state === "taken" ? name : `${name} (${state})`)).join(", ");
    const fields = row.it.shown.map((line) => run.lines[line]);
    const sender = row.from === null ? "nobody" : `${row.from} in boot ${row.it.boot}`;
    const head = escaped(`${row.word}${row.it.clock} s, ${sender} on ${row.it.link} to ${told}`);
    const first = escaped(fields[0] || `no PDU: ${row.it.hex}`);
    const more = fields.slice(1).map((line) => `<div>${escaped(line)}</div>`).join("");
    const drawn = `<svg class="ladder" width="${names.length * COLUMN + COLUMN}" height="${height}">${lives}${arrows}${start}</svg>`;
    return `<tr class="row"><td>${drawn}</td><td><span class="soft">${head}</span><details><summary>${first}</summary>${more}</details></td></tr>`;
}

function drawLadder(step) {
    const rows = rowsOf(step);
    const shown = whole ? rows : rows.slice(0, MOST);
    const named = new Set(shown.flatMap((row) => [row.from].concat(row.ends.map((end) => end[0]))));
    const names = run.routers.filter((name) => named.has(name));
    const heads = names.map((name, at) => `<text x="${at * COLUMN + COLUMN}" y="14">${name}</text>`).join("");
    const head = `<tr><td><svg class="ladder" width="${names.length * COLUMN + COLUMN}" height="18">${heads}</svg></td><td></td></tr>`;
    const left = rows.length - shown.length;
    const more = left ? `<p><button id="all">show ${left} more</button></p>` : "";
    part("ladder").innerHTML = rows.length ? `<table>${head}${shown.map((row) => ladderRow(row, names)).join("")}</table>${more}` : "<p>none</p>";
    if (left) {
        part("all").addEventListener("click", () => { whole = true; drawLadder(step); });
    }
}

// ---- steps

function told(step) {
    if (!step.count) {
        return "the network before its first event";
    }
    const second = step.seconds > 1 ? `, second ${step.second} of ${step.seconds}` : "";
    return `line ${step.line}: ${run.script[step.line - 1]}${second}; ${step.clock} s so far`;
}

function show(place) {
    now = Math.max(0, Math.min(run.steps.length - 1, place));
    whole = false;
    const step = run.steps[now];
    part("slider").value = now;
    const every = run.every > 1 ? `, shown in steps of ${run.every}` : "";
    part("at").textContent = `step ${step.count} of ${run.steps[run.steps.length - 1].count}${every}: ${told(step)}${changes(step)}`;
    part("slider").setAttribute("aria-valuetext", `step ${step.count}`);
    Array.from(part("script").children).forEach((line, at) => {
        const isHere = at + 1 === step.line;
        line.setAttribute("class", isHere ? "line here" : "line");
        if (isHere) {
            part("script").scrollTop = line.offsetTop - part("script").offsetTop - 60;
        }
    });
    again();
    drawLadder(step);
    drawLsps(step, run.steps[Math.max(0, now - 1)]);
    movePackets(step);
}

function again() {
    const step = run.steps[now];
    const before = run.steps[Math.max(0, now - 1)];
    drawPicture(step, before);
    drawPackets(step, before);
    drawReport(step, before);
    history.replaceState(null, "", `#${step.count}${chosen ? "/" + encodeURIComponent(chosen) : ""}`);
}

// Whether something is sent or a line of the report changes in a step.
const isEvent = run.steps.map((step, at) => at > 0 && (step.rows.length > 0 ||
    ["blocks", "nodes", "edges", "traces"].some((part) => String(step[part]) !== String(run.steps[at - 1][part]))));

function eventFrom(place, way) {
    let found = place;
    while (found > 0 && found < run.steps.length - 1 && !isEvent[found]) {
        found += way;
    }
    return found;
}

function drawMarks() {
    const last = Math.max(1, run.steps.length - 1);
    part("marks").innerHTML = isEvent.map((is, at) => (is ? `<rect x="${(at / last) * 1000 - 1.5}" width="3" height="8"/>` : "")).join("");
}

// What a step did, in words.
function changes(step) {
    const before = run.steps[Math.max(0, now - 1)];
    const sent = rowsOf(step).length;
    const parts = run.parts.filter((_, at) => step.blocks[at] !== before.blocks[at] && !["whole", "report"].includes(run.parts[at]));
    const sends = sent ? `; ${sent} datagram${sent === 1 ? "" : "s"}` : "";
    return sends + (parts.length ? `; changed: ${parts.join(", ")}` : "");
}

function choose(name) {
    chosen = name === chosen ? "" : name;
    again();
}

function play(isOn) {
    clearInterval(timer);
    timer = isOn ? setInterval(() => (now + 1 < run.steps.length ? show(eventFrom(now + 1, 1)) : play(false)), PAUSE) : null;
    part("play").textContent = isOn ? "pause" : "play";
}

function toggle() {
    if (!timer && now + 1 === run.steps.length) {
        show(0);
    }
    play(!timer);
}

const KEYS = {
    ArrowRight: () => show(now + 1), ArrowLeft: () => show(now - 1), Home: () => show(0), End: () => show(run.steps.length - 1), " ": toggle,
    n: () => show(eventFrom(now + 1, 1)), p: () => show(eventFrom(now - 1, -1)),
};

// The step and the part that the address names, as `#44/B`; else the first step.
function showAddress(names) {
    const [count, name] = location.hash.slice(1).split("/").map(decodeURIComponent);
    chosen = names.includes(name) ? name : chosen;
    const place = run.steps.findIndex((step) => step.count >= Number(count));
    show(place < 0 ? run.steps.length - 1 : place);
}

// Whether the picture has its own size, and is scrolled, or that of its column.
function setFull(isFull) {
    part("picture").classList.toggle("full", isFull);
    part("size").textContent = isFull ? "fit to width" : "full size";
}

// Routers and the lines of links are buttons, also for the keyboard and for a screen reader.
function asButton(element) {
    const name = partOf(element);
    element.setAttribute("tabindex", "0");
    element.setAttribute("role", "button");
    element.setAttribute("aria-label", run.routers.includes(name) ? `router ${name}` : name);
    element.addEventListener("click", () => choose(name));
    element.addEventListener("keydown", (event) => {
        if (event.key === "Enter" || event.key === " ") {
            event.preventDefault();
            event.stopPropagation();
            choose(name);
        }
    });
}

function begin() {
    part("script").innerHTML = run.script.map((line) => `<div class="line">${escaped(line) || " "}</div>`).join("");
    Array.from(part("script").children).forEach((line, at) => line.addEventListener("click", () => {
        const place = run.steps.findIndex((step) => step.line >= at + 1);
        show(place < 0 ? run.steps.length - 1 : place);
    }));
    const names = ["", ...run.routers, ...run.links.map((link) => "link " + link.name)];
    part("of").innerHTML = names.map((name) => `<option value="${name}">${name || "all lines"}</option>`).join("");
    part("of").addEventListener("change", () => { chosen = part("of").value; again(); });
    part("slider").setAttribute("max", String(run.steps.length - 1));
    part("slider").addEventListener("input", () => show(Number(part("slider").value)));
    part("back").addEventListener("click", () => show(now - 1));
    part("on").addEventListener("click", () => show(now + 1));
    part("play").addEventListener("click", toggle);
    part("earlier").addEventListener("click", KEYS.p);
    part("later").addEventListener("click", KEYS.n);
    part("size").addEventListener("click", () => setFull(!part("picture").classList.contains("full")));
    nodes.forEach(asButton);
    labels.forEach(asButton);
    const drawn = document.querySelector("#picture svg");
    drawn.setAttribute("role", "group");
    document.querySelector("main").classList.toggle("broad", Number(drawn.getAttribute("width")) > 800);
    setFull(Number(drawn.getAttribute("width")) > 2 * part("net").clientWidth);
    drawMarks();
    document.addEventListener("keydown", (event) => {
        const tag = event.target ? event.target.tagName : "";
        const isTaken = tag === "SELECT" || (event.key === " " && ["BUTTON", "SUMMARY"].includes(tag));
        if (KEYS[event.key] && !isTaken && !event.ctrlKey && !event.altKey && !event.metaKey) {
            event.preventDefault();
            KEYS[event.key]();
        }
    });
    addEventListener("hashchange", () => showAddress(names));
    showAddress(names);
}

begin();

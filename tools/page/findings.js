class Fault extends Error {}

/** What is found on the way, counted. */
class Findings {
  constructor() { this.rows = new Map(); }
  /** Counts a finding; the first example stays. Where a node is told, boxes at it that the browser lays elsewhere are told with it. */
  add(kind, what, example, {count = 1, node = null} = {}) {
    const key = kind + "\n" + what;
    const row = this.rows.get(key) || {kind, what, count: 0, example};
    row.count += count;
    this.rows.set(key, row);
    if (node) (node.causes = node.causes || new Set()).add(what);
  }
  of(kind) { return [...this.rows.values()].filter(it => it.kind === kind).sort((a, b) => b.count - a.count); }
}

function short(text, most = 60) {
  const line = text.trim().replace(/\s+/g, " ");
  return line.length > most ? line.slice(0, most - 2) + ".." : line;
}

function called(node) {
  const of = MADE[node.made] ? node.from : null;
  const attrs = of ? {id: of.id, class: of.getAttribute("class")} : node.attrs || {};
  const classes = (attrs.class || "").trim().split(/\s+/).filter(it => it);
  const name = `${of ? of.localName : node.tag}${attrs.id ? "#" + attrs.id.trim() : ""}${classes.map(it => "." + it).join("")}`;
  // a node has no number until all are said
  return `${node.number === undefined ? "" : `node ${node.number} `}${name}${of ? ":" + node.made : ""}`;
}

const line = row => `  ${row.what}: ${row.count}, first ${row.example}`;

const TITLES = {
  quirks: "The page is in quirks mode:",
  warning: "Missing:",
  said: "Said in the profile's own words:",
  otherwise: "Browsers read these otherwise than the job:",
  told: "Besides:",
};

function report(findings) {
  const lines = [];
  const refused = findings.of("refused");
  if (refused.length) lines.push("The profile refuses, so that there is no answer while they stand:", ...refused.map(line));
  for (const [kind, title] of Object.entries(TITLES)) {
    const rows = findings.of(kind);
    if (rows.length) lines.push(title, ...rows.map(line));
  }
  return lines;
}

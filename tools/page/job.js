// ---- the job

/** Declarations that beat the page's own. */
const important = pins => [...pins].map(([name, value]) => `${name}:${value} !important`).join(";");

const single = pins => [...pins].filter(([, value]) => !(value instanceof BySteps));

/** The rules for a selector that say values by steps: those of the narrowest step, and those that turn at each later one. */
function rulesBySteps(selector, pins) {
  const turned = [...pins].filter(([, value]) => value instanceof BySteps);
  return [...new Set(turned.map(([, value]) => value.steps))].flatMap(steps => Array.from({length: steps.count}, (_, step) => {
    const here = turned.filter(([, value]) => value.steps === steps && value.turns.includes(step));
    const rule = `${selector}{${important(here.map(([name, value]) => [name, value.values[step]]))}}`;
    return !here.length ? "" : step ? `@media ${steps.from(step)}{${rule}}` : rule;
  })).filter(it => it);
}

/** What is said beyond the sheets, as a sheet: of generated content, and by steps of the width. Each element of which it says something gets the
 * number of its rules. */
function sheetOfPins(tree) {
  const groups = new Map();
  const put = (node, name, rules) => {
    if (!rules.length) return;
    const known = groups.get(name) || groups.set(name, []).get(name);
    const said = rules.join("\n");
    if (!known.includes(said)) known.push(said);
    node.attrs = {...node.attrs, [name]: String(known.indexOf(said))};
  };
  const visit = node => {
    const made = (node.children || []).filter(it => tree.kept && MADE[it.made]);
    put(node, MADE_AT, [...made.filter(it => single(it.pins).length).map(it => `&:${it.made}{${important(single(it.pins))}}`),
      ...made.flatMap(it => rulesBySteps(`&:${it.made}`, it.pins)),
      ...(tree.kept && node.unmade || []).map(it => `&:${it}{content:none !important}`)]);
    if (node.tag && !(tree.kept && MADE[node.made])) put(node, TURNED_AT, rulesBySteps("&", node.pins));
    for (const child of node.children || []) visit(child);
  };
  visit(tree.root);
  return [...groups].flatMap(([name, known]) => known.map((said, at) => said.replace(/^(@media [^{]*\{)?&/gm, `$1[${name}="${at}"]`))).join("\n");
}
const MADE_AT = "vizlog-made", TURNED_AT = "vizlog-turned";

/** The job as text: a member or an element a line. Generated content that stays as it is isn't written. */
function written(job, {root, kept}) {
  const lines = [];
  const element = (node, indent, after) => {
    const children = (node.children || []).filter(it => !kept || !MADE[it.made]);
    const head = {tag: node.tag};
    const pins = important(single(node.pins));
    const style = [node.style, pins].filter(it => it).join(node.style && !/;\s*$/.test(node.style) ? ";" : "");
    if (Object.keys(node.attrs).length || style) head.attrs = style ? {...node.attrs, style} : node.attrs;
    if (node.size) head.size = node.size;
    const text = JSON.stringify(head).slice(0, -1);
    if (!children.length) { lines.push(`${indent}${text}}${after}`); return; }
    lines.push(`${indent}${text},"children":[`);
    children.forEach((child, at) => {
      const comma = at + 1 < children.length ? "," : "";
      if (child.chars !== undefined) lines.push(`${indent} ${JSON.stringify(child.chars)}${comma}`);
      else element(child, indent + " ", comma);
    });
    lines.push(`${indent}]}${after}`);
  };
  const [form, high] = job.heights ? [2, `"heights":${JSON.stringify(job.heights)}`] : [1, `"height":${job.height}`];
  lines.push(`{"vizlog":${form},"widths":${JSON.stringify(job.widths)},"sizes":${JSON.stringify(job.sizes)},${high},`);
  lines.push(`"fonts":[`, job.fonts.map(it => JSON.stringify(it)).join(",\n") + "],");
  lines.push(`"css":[`, job.css.map(it => JSON.stringify(it)).join(",\n") + "],", `"page":`);
  element(root, "", ",");
  if (Object.keys(job.letters).length) lines.push(`"letters":${JSON.stringify(job.letters)},`);
  lines.push(`"assert":${JSON.stringify(job.assert)}}`);
  return lines.join("\n") + "\n";
}

/** What is said in the profile's words where nothing else is asked for. */
const SAYINGS = ["preformatted", "breaks", "media", "generated", "position", "blocks", "values", "faces", "spacing", "cases", "kerning"];
const TEXT_SPACING = "*{line-height:1.5 !important;letter-spacing:.12em !important;word-spacing:.16em !important}"
  + "p{margin-bottom:2em !important}";
const RIGHT_TO_LEFT = /[\u0590-\u08ff\u200f\u202b\u202e\u2067\ufb1d-\ufdff\ufe70-\ufefe\u{10800}-\u{10fff}\u{1e800}-\u{1efff}]/u;

/** The way from the page to its job: `begin`, `look` at each world, `prepare`, `settle` at each world, `finish`. */
class Exporter {
  constructor(page, options) {
    const said = Object.fromEntries(SAYINGS.map(it => [it, !(options.without || []).includes(it)]));
    Object.assign(this, {page, options: {widths: [320, 1920], sizes: [12, 24], height: 800, assert: "true", texts: {}, ...options, ...said},
      findings: new Findings(), worlds: [], rectangles: []});
    this.media = new Media(this.options);
  }

  async begin() {
    const {page, findings, options} = this;
    if (!page.documentElement || !page.body || page.body.localName !== "body") throw new Fault("the page has no document with a body");
    if (!/html/.test(page.contentType)) throw new Fault(`the page is no HTML document but ${page.contentType}`);
    if (options.textSpacing) page.head.append(Object.assign(page.createElement("style"), {textContent: TEXT_SPACING}));
    for (const it of page.images) it.loading = "eager";
    const loaded = Promise.all([page.fonts.ready, ...[...page.images].map(it => it.decode().catch(() => {}))]);
    await Promise.race([loaded, new Promise(done => setTimeout(done, 10000))]);
    for (const it of page.fonts) {
      if (it.status === "error") findings.add("warning", "a font that the browser could not load", it.family);
    }
    this.css = await sheetsOf(page, options.texts, findings);
    for (const text of this.css) this.media.find(text);
    const selectors = [...this.css.flatMap(selectorsOf), ...this.quoted()];
    const names = new Set(selectors.flatMap(it => [...it.matchAll(/\[\s*([-\w]+)/g)].map(found => found[1].toLowerCase())));
    if (selectors.some(it => /:link/i.test(it))) names.add("href");
    names.delete("style");
    const gaps = selectors.some(it => /\+|:first-child/i.test(it));
    this.tree = new Tree(page.documentElement, names, gaps, options, findings);
    this.tree.walk(node => this.place(node));
    this.quirks = quirksOf(page);
    if (this.quirks) {
      const what = this.quirks === "whole" ? "without `<!DOCTYPE html>` browsers lay out otherwise than CSS has it"
        : "with a transitional `<!DOCTYPE>` browsers make lines without text of their own as high as what is in them";
      findings.add("quirks", what, page.location.href, {node: this.tree.root});
    }
    let holds = false;
    const seen = it => it.chars === undefined ? !LEFT_OUT.has(it.tag) && !/^(?:html|body)$/.test(it.tag) : it.chars.trim() !== "";
    this.tree.walk(it => { holds = holds || seen(it); });
    if (!holds) throw new Fault("the page is empty: its body has no element that can be seen and no text");
    const counts = this.quoted().map(it => { try { return [it, page.querySelectorAll(it).length]; } catch { return [it, null]; } });
    return {selectors: counts};
  }

  /** The selectors of the assertion. */
  quoted() { return (this.options.assert.match(/"[^"]*"/g) || []).map(it => it.slice(1, -1)); }

  /** Takes down how an element stands in the lines around it, at the present world. */
  place(node) {
    if (node.chars !== undefined) return;
    const style = getComputedStyle(node.of || node.from, node.made && `::${node.made}`);
    node.out = style.float !== "none" || /^(?:absolute|fixed)$/.test(style.position);
    node.boxed = node.tag === "wbr" && this.options.breaks && !/nowrap|^pre$/.test(style.whiteSpace);
  }

  /** Asks the conditions of @media at the present world. */
  glance() { this.media.ask(); }

  /** The worlds at which the page is to be looked at: those that are told, and some at both ends of each step. */
  ends(told) {
    this.widths = widthsOf(this.css, this.media);
    const more = laddersOf(this.widths, this.options).flatMap(it => it.worlds(told[0]));
    return [...new Map([...told, ...more].map(it => [it.join(), it])).values()];
  }

  /** Takes down what the browser computes and where it lays each box, at the present world. */
  look(world) {
    const at = this.worlds.push(world) - 1;
    this.media.ask();
    for (const it of this.widths || []) {
      const met = (world[0] >= firstAbove(it, world[1])) !== it.most;
      const what = "a width of @media that the browser meets elsewhere";
      if (matchMedia(it.text).matches !== met) this.findings.add("otherwise", what, `${it.text} at ${world[0]} px`);
    }
    const boxes = new Map();
    this.tree.walk(node => {
      if (node.chars !== undefined) return;
      node.samples = node.samples || [];
      if (node.of) {
        this.tree.show(node, it => this.place(it));
        if (node.of.getClientRects().length) {
          const box = node.of.getBoundingClientRect();
          boxes.set(node, [box.left + scrollX, box.top + scrollY, box.right + scrollX, box.bottom + scrollY]);
        }
        node.samples[at] = valuesOf(node.of);
        if (shownDisplay(node.of) === "none") node.samples[at].display = "none";
      } else if (node.from) node.samples[at] = isMade(node) ? valuesOfMade(node.from, `::${node.made}`) : null;
    });
    this.rectangles.push(boxes);
    this.wraps();
  }

  /** Finds where lines of `pre-wrap` wrap at the present world. */
  wraps() {
    const roots = [];
    this.tree.walk((node, parent) => {
      const kept = it => it && it.of && /^(?:pre-wrap|break-spaces)$/.test(it.samples[it.samples.length - 1]["white-space"]);
      if (kept(node) && !kept(parent)) roots.push(node);
    });
    const high = () => roots.map(it => it.of.getBoundingClientRect().height);
    const before = high();
    const styles = roots.map(it => it.of.getAttribute("style"));
    roots.forEach(it => it.of.style.setProperty("white-space", "pre", "important"));
    const behind = high();
    roots.forEach((it, at) => styles[at] === null ? it.of.removeAttribute("style") : it.of.setAttribute("style", styles[at]));
    roots.forEach((it, at) => {
      if (Math.abs(before[at] - behind[at]) < 1) return;
      const mark = node => { node.wraps = true; (node.children || []).forEach(mark); };
      mark(it);
    });
  }

  /** The least width at the worlds that were looked at of the block that a node's lines are in, in px. */
  least(node) {
    let block = node.of || node.from;
    while (block.parentElement && getComputedStyle(block).display === "inline") block = block.parentElement;
    const bearer = this.tree.nodes.find(it => it.of === block);
    const boxes = this.rectangles.map(it => it.get(bearer)).filter(it => it);
    return Math.min(...boxes.map(it => it[2] - it[0]));
  }

  /** In quirks mode the margins of the browser's own style at the head of the body count for nothing. */
  sayHead() {
    if (this.quirks !== "whole" || !this.options.values) return;
    const body = this.tree.root.children.find(it => it.tag === "body");
    let node = body;
    while (node && ["padding-top", "border-top-width"].every(it => zero(this.first(node)[it]))) {
      node = (node.children || []).find(it => it.chars !== undefined ? it.chars.trim() : !this.hidden(it) && !it.out);
      if (!node || node.chars !== undefined || !blockLevel(node) || !node.of) return;
      const margin = this.first(node)["margin-top"];
      const [around, own] = [body, node].map(it => this.rectangles[0].get(it));
      if (margin > 0 && around && own && Math.abs(around[1] - own[1]) < 0.02 && around[1] < margin - 0.02) {
        node.headless = true;
        this.findings.add("said", "margin-top: 0 at the head of the body, as browsers have it in quirks mode", called(node));
      }
    }
  }

  prepare() {
    const {page, tree, options, findings} = this;
    this.blank = new Blank(page);
    const initial = this.blank.frame.contentWindow.getComputedStyle(this.blank.page.body).fontFamily;
    this.fonts = new FontSet(page, initial, options, findings);
    this.normal = new Normal(this.blank, findings);
    new Texts(tree, this.fonts.fonts, options, findings).say();
    sayBlocks(tree, this, options, findings);
    tree.finish();
    this.sayHead();
    for (const node of tree.nodes) for (const it of this.sizesOf(node)) this.fonts.sizes.add(it);
    if (options.kerning) sayKerning(tree, this, findings);
    sayBreaks(tree, this, options, findings);
    tree.finish();
    tree.keep(findings);
    tree.finish();
    const generated = tree.kept || !options.generated ? "kept" : "elements";
    this.media.short = options.media && widthsOf(this.css, this.media).length > MOST_WIDTHS;
    const words = new SheetWords(this.media, options, generated, findings);
    this.css = this.css.map((text, at) => words.sheet(text, `sheet ${at}`)).filter(it => it.trim());
    this.ladders = laddersOf(widthsOf(this.css, this.media), options);
    if (tree.nodes.some(it => it.tag === BREAK_TAG)) this.css.push(`${BREAK_TAG}{display:inline-block}`);
    const measure = sizer(this.blank, findings);
    for (const node of tree.nodes) {
      if (node.replaced) node.size = measure(node);
      // fonts are known before the copy names them
      if (node.tag && !this.hidden(node)) this.fontOf(node);
    }
    if (options.values) this.copy = new Copy(page, tree, this.css, this);
  }

  /** Whether a node has no box at any world. */
  hidden(node) { return node.display === "none" || LEFT_OUT.has(node.tag) || !node.samples; }
  /** The worlds, by number, at which a node has a box; all at which something is computed for it where it has none at any. */
  shownAt(node) {
    const all = this.worlds.map((_, at) => at).filter(at => !node.samples || node.samples[at]);
    if (!node.samples) return all;
    const shown = all.filter(at => node.samples[at].display !== "none");
    return shown.length ? shown : all;
  }
  /** What the browser computes at the first of these worlds. */
  first(node) { return node.samples[this.shownAt(node)[0]]; }
  samplesOf(node) { return this.shownAt(node).map(at => node.samples[at]); }

  settle(at) { if (this.copy) this.copy.settle(at); }

  // what the copy asks

  styleOf(node) { return getComputedStyle(node.of || node.from, node.made && `::${node.made}`); }
  fontOf(node) { return node.font = node.font || this.fonts.of(this.styleOf(node), this.samplesOf(node), node, () => this.normalOf(node)); }
  /** The font sizes of a node at some worlds. */
  sizesOf(node, at = this.shownAt(node)) { return node.samples ? at.map(it => node.samples[it] ? node.samples[it]["font-size"] : NaN) : []; }
  sizesAround(node, at) {
    const parent = this.parents.get(node);
    return parent ? this.sizesOf(parent, at) : at.map(it => this.worlds[it][1]);
  }
  get parents() {
    if (!this.known) {
      this.known = new Map();
      this.tree.walk((node, parent) => { this.known.set(node, parent); });
    }
    return this.known;
  }
  normalOf(node) {
    if (node.normal === undefined) {
      const shown = this.shownAt(node), sizes = this.sizesOf(node, shown);
      const [least, most] = this.options.sizes;
      const ratio = sizes[0] / this.worlds[shown[0]][1];
      const goes = sizes.every((it, at) => Math.abs(it - ratio * this.worlds[shown[at]][1]) < 0.01);
      const step = Math.max(1, Math.ceil((most - least) / 32));
      const all = goes ? Array.from({length: Math.floor((most - least) / step) + 1}, (_, at) => ratio * (least + at * step)) : sizes;
      const found = this.normal.of(this.styleOf(node), [...new Set(all.map(it => +it.toFixed(3)))]);
      node.normal = found.number;
      node.off = found.most;
    }
    return node.normal;
  }
  /** Whether a node's own line height counts for none of its lines: in quirks mode, where it has lines without any text of its own. */
  isLow(node) {
    if (node.low === undefined) {
      const has = test => (node.children || []).some(it => it.tag && !this.hidden(it) && it.made !== "break" && test(it));
      node.low = Boolean(this.quirks) && this.options.values && !node.replaced && node.display !== "list-item"
        && !(node.children || []).some(it => it.chars !== undefined && (it.plain || it.chars).trim() || it.tag === "br")
        && has(it => /^inline/.test(it.display) && !it.asBlock && !it.out);
      if (node.low) this.findings.add("said", "line-height: 0 where browsers count none in this mode", called(node));
    }
    return node.low;
  }
  /** Whether a node, or one in it that has the line height from it, has lines of `line-height: normal`. */
  hasLines(node) {
    if (node.lines === undefined) {
      const stands = it => !this.hidden(it) && (it.tag === "br" || /^inline/.test(it.display));
      const inline = it => it.chars !== undefined ? it.chars.trim() !== "" : stands(it);
      const normal = it => it.tag && !this.hidden(it) && this.first(it)["line-height"] === "normal";
      node.lines = normal(node) && (node.children || []).some(it => inline(it) || normal(it) && this.hasLines(it));
    }
    return node.lines;
  }
  wantedAt(node, at) {
    if (node.made === "box" || node.boxed) return EMPTY_BOX;
    if (!node.samples[at]) return {display: "none"};
    node.wanted = node.wanted || [];
    return node.wanted[at] = node.wanted[at] || (node.made ? wantedOfMade : wanted)(node, node.samples[at], this);
  }
  told(node, name, value) {
    const blank = MADE[node.made] && isBlank(node) && this.styleOf(node).display === "table";
    const table = blank && name === "display" && value === "block";
    if (blank && /^(?:overflow|width)$/.test(name)) return;
    const what = table ? "display: table of generated content without text, which the profile refuses, as block"
      : `${name} by the browser's computed value`;
    this.findings.add("said", what, `${called(node)} (${value})`);
  }
  /** Says the text of generated content, and that there is none, where the sheets' own rules come to something else. */
  sayContent() {
    const selectors = this.css.flatMap(selectorsOf).filter(it => PSEUDO.test(it) && READ.test(bearerOf(it)));
    for (const node of this.tree.written) {
      const made = which => this.tree.kept && this.copy && !this.hidden(node) && this.copy.makes(node, which, selectors);
      node.unmade = [...node.unmade || []].filter(made);
      if (node.unmade.length) this.findings.add("said", "no generated content where the browser makes none", called(node));
    }
    for (const node of this.tree.kept ? this.tree.made : []) {
      if (this.copy) this.copy.stand(this.shownAt(node)[0]);
      const text = node.children.map(it => it.chars).join("");
      if (text === (this.copy ? this.copy.contentOf(node) : node.content)) continue;
      const all = this.worlds.map((_, at) => at);
      const said = at => at.every(it => node.samples[it]) ? quotedText(text) : at.some(it => node.samples[it]) ? null : "none";
      const value = bySteps(this.ladders, this.worlds, all, said);
      if (value === null) this.findings.add("otherwise", "generated content at some widths alone", called(node), {node});
      else node.pins.set("content", value);
      this.findings.add("said", "content by the text that it comes to", `${called(node)} (${short(text, 30)})`);
    }
  }
  unsaid(node, name) {
    const found = this.shownAt(node).map(at => this.wantedAt(node, at)[name]);
    const value = found[0];
    if (REFUSED[name] && REFUSED[name].test(value)) return;
    const length = found.every(it => typeof it === "number");
    const word = length ? "a length of neither px nor em" : percent(value) ? "percentages" : short(String(value), 30).replace(/\(.*/, "()");
    const what = value === "box-sizing" ? value : `${name}: ${word}`;
    this.findings.add("otherwise", what, `${called(node)} (${found.slice(0, 2).join(", ")})`, {node});
  }

  /** The job's text, the lines to tell, the counts, and where the browser lays the boxes. */
  finish() {
    const {tree, options, findings} = this;
    this.sayContent();
    const made = sheetOfPins(tree);
    if (made) this.css.push(made);
    judgeNodes(this);
    this.css.forEach((text, at) => judgeSheet(text, at, findings));
    const fonts = this.fonts.all(tree);
    judgeWidths(widthsOf(this.css, this.media), options, findings);
    judgeLimits(this, fonts);
    const counts = {elements: tree.elements, characters: tree.characters, sheets: this.css.length, fonts: fonts.map(it => it.name)};
    // what the letters of the page's own texts are, for those who show them: the program passes this member over
    const letters = Object.fromEntries([...this.fonts.kerned].map(([code, {letter}]) => [String.fromCodePoint(code), letter]));
    const {widths, sizes, height, heights, assert} = options;
    const job = written({letters, widths, sizes, height, heights, fonts, css: this.css, assert}, tree);
    const round = it => it && it.map(one => Math.round(one * 1000) / 1000);
    return {job, lines: report(findings), refused: findings.of("refused"), counts,
      rectangles: this.rectangles.map(boxes => tree.written.map(it => round(boxes.get(it)) || null)),
      nodes: tree.written.map(it => ({real: Boolean(it.of), causes: tree.causesAt(it)})), said: findings.of("said"),
      otherwise: findings.of("otherwise")};
  }

  end() {
    if (this.copy) this.copy.end();
    if (this.blank) this.blank.end();
  }
}

/** Which of the browsers' modes the page is in: null, "limited" (the lines of a transitional document type) or "whole". */
function quirksOf(page) {
  if (page.compatMode === "BackCompat") return "whole";
  const kind = page.doctype ? page.doctype.publicId : "";
  return /^-\/\/W3C\/\/DTD (?:XHTML 1\.0|HTML 4\.01) (?:Transitional|Frameset)\/\//i.test(kind) ? "limited" : null;
}

/** The selectors of a sheet. */
function selectorsOf(text) {
  return statements(text).flatMap(({head, block}) => block === null ? [] : /^@(?:media|supports|layer|container)\b/i.test(head)
    ? selectorsOf(block) : head[0] === "@" ? [] : parts(head));
}

let exporter = null;
/** Calls a step of the way, and gives a fault in place of what it finds where there is no job. */
async function step(name, ...given) {
  try {
    if (name === "begin") {
      if (exporter) exporter.end();
      exporter = new Exporter(document, given[0] || {});
    }
    return await exporter[name](...given) ?? null;
  } catch (fault) {
    if (fault instanceof Fault) return {fault: fault.message};
    throw fault;
  }
}

/** For a console: tells what was found at the present width and size, and offers the job as a file. */
async function shown(options = {}) {
  const now = [innerWidth, parseFloat(getComputedStyle(document.documentElement).fontSize)];
  for (const words of [["begin", options], ["look", now], ["prepare"], ["settle", 0], ["finish"]]) {
    const found = await step(...words);
    if (found && found.fault) { console.error(found.fault); return; }
    if (words[0] !== "finish") continue;
    console.log(found.lines.join("\n"));
    console.log("Tried at this width and size alone; tools/job_from_page tries five.");
    Object.assign(document.createElement("a"), {href: URL.createObjectURL(new Blob([found.job])), download: "job.json"}).click();
  }
  exporter.end();
}

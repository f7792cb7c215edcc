// ---- values: what the browser computes, and what it computes of the job as the profile reads it

/** The profile's default sheet. */
const DEFAULTS = `html,body,div,p,h1,h2,h3,h4,h5,h6,ul,ol,dl,dt,dd,form,fieldset,legend,address,blockquote,center,hr,pre,article,aside,
section,nav,header,footer,main,figure,figcaption,noframes{display:block}li{display:list-item}
head,script,style,title,meta,link,base,noscript,template{display:none}
button,input,select,textarea{display:inline-block}table{display:table}tr{display:table-row}td,th{display:table-cell}body{margin:8px}
h1{font-size:2em;margin:.67em 0}h2{font-size:1.5em;margin:.75em 0}h3{font-size:1.17em;margin:.83em 0}h4,p,ul,ol,dl{margin:1em 0}
h5{font-size:.83em;margin:1.5em 0}h6{font-size:.75em;margin:1.67em 0}blockquote,figure{margin:1em 40px}ul,ol{padding-left:40px}
dd{margin-left:40px}hr{border:1px inset;margin:.5em 0}pre{white-space:pre}small,sub,sup{font-size:.83em}sub{vertical-align:sub}
sup{vertical-align:super}center{text-align:center}`;

const LENGTHS = ["width", "height", "min-width", "min-height", "max-width", "max-height", "text-indent", "vertical-align",
  "letter-spacing", "word-spacing", ...SIDES.flatMap(it => [`margin-${it}`, `padding-${it}`])];
const WORDS = ["display", "position", "float", "clear", "text-align", "direction", "overflow-x", "overflow-y", "box-sizing", "white-space",
  "font-family", "text-transform", "list-style-position"];

/** A length as a number of px, anything else as it is told. */
const lengthOf = text => /^-?[\d.]+(?:e[-+]?\d+)?px$/.test(text) ? parseFloat(text) : text;

/** What the browser computes for an element: px as numbers, percentages and words as texts. */
function valuesOf(of) {
  const style = of.ownerDocument.defaultView.getComputedStyle(of);
  const map = of.computedStyleMap();
  const found = {"font-size": parseFloat(style.fontSize)};
  for (const name of WORDS) found[name] = style.getPropertyValue(name);
  for (const name of LENGTHS) found[name] = lengthOf(String(map.get(name) ?? style.getPropertyValue(name)));
  for (const name of ["letter-spacing", "word-spacing"]) if (found[name] === "normal") found[name] = 0;
  for (const name of ["min-width", "min-height"]) if (found[name] === "auto") found[name] = 0;
  for (const side of SIDES) {
    const none = /^(?:none|hidden)$/.test(style.getPropertyValue(`border-${side}-style`));
    found[`border-${side}-width`] = none ? 0 : parseFloat(style.getPropertyValue(`border-${side}-width`));
  }
  found["line-height"] = lengthOf(String(map.get("line-height")));
  // what browsers give no ratio: their sizes, where no sheet sets them, are what they are
  if (NO_RATIO.has(of.localName) && of.type !== "image") found.inner = contentBox(of, style);
  found.offsets = SIDES.every(it => /^(?:auto|0px|0%)$/.test(String(map.get(it)))) ;
  return found;
}

const BOX_DISPLAY = {"flow-root": "block", flex: "block", grid: "block", "-webkit-box": "block", "inline-flex": "inline-block",
  "inline-grid": "inline-block", "-webkit-inline-box": "inline-block", ruby: "inline", "ruby-text": "inline", "inline-ruby": "inline",
  math: "inline", "block math": "block"};
const SPACED = /^(?:letter|word)-spacing$/;
const percent = text => typeof text === "string" && /^-?[\d.]+%$/.test(text);
const zero = value => value === 0 || value === "0%";

/** The value of a size for a box of content, where the browser's is for a box with its padding and border. */
function contentSize(values, name) {
  const size = values[name];
  if (values["box-sizing"] !== "border-box" || /^(?:auto|none)$/.test(size) || zero(size)) return size;
  const [one, other] = /width/.test(name) ? ["left", "right"] : ["top", "bottom"];
  const edges = [`padding-${one}`, `padding-${other}`, `border-${one}-width`, `border-${other}-width`].map(it => values[it]);
  if (edges.every(zero)) return size;
  const whole = edges.every(it => typeof it === "number");
  if (typeof size === "number") return whole ? Math.max(0, size - edges.reduce((a, b) => a + b)) : "box-sizing";
  if (percent(size) && /width/.test(name) && edges.every(it => percent(it) || it === 0)) {
    return `${Math.max(0, +(parseFloat(size) - edges.reduce((sum, it) => sum + (parseFloat(it) || 0), 0)).toFixed(6))}%`;
  }
  const fills = name === "width" && size === "100%" && /^(?:block|list-item)$/.test(values.display) && values.float === "none"
    && zero(values["margin-left"]) && zero(values["margin-right"]);
  return fills ? "auto" : "box-sizing";
}

/** What the browser computes for generated content, of which it tells the sizes in use alone. */
function valuesOfMade(of, pseudo) {
  const style = getComputedStyle(of, pseudo);
  const found = {"font-size": parseFloat(style.fontSize)};
  for (const name of ["display", "position", "float", "clear"]) found[name] = style.getPropertyValue(name);
  for (const it of SIDES) {
    for (const name of [`margin-${it}`, `padding-${it}`]) found[name] = lengthOf(style.getPropertyValue(name));
    const none = /^(?:none|hidden)$/.test(style.getPropertyValue(`border-${it}-style`));
    found[`border-${it}-width`] = none ? 0 : parseFloat(style.getPropertyValue(`border-${it}-width`));
  }
  for (const name of ["letter-spacing", "word-spacing"]) found[name] = parseFloat(style.getPropertyValue(name)) || 0;
  found["line-height"] = style.lineHeight;
  return found;
}

const EMPTY_BOX = {display: "inline-block", position: "static", float: "none", clear: "none", overflow: "visible",
  "vertical-align": "baseline",
  ...Object.fromEntries(["width", "height"].map(it => [it, "auto"])), ...Object.fromEntries(["min-width", "min-height"].map(it => [it, 0])),
  ...Object.fromEntries(SIDES.flatMap(it => [[`margin-${it}`, 0], [`padding-${it}`, 0], [`border-${it}-width`, 0]]))};

/** Whether generated content has nothing in it that makes a line. */
const isBlank = node => node.children.every(it => it.chars !== undefined && /^[ \t\r\n\f]*$/.test(it.chars));

function wantedOfMade(node, values, set) {
  const empty = isBlank(node) && values.display === "table";
  const found = {"font-size": values["font-size"], position: values.position, float: values.float, clear: values.clear,
    display: empty ? "block" : BOX_DISPLAY[values.display] || values.display, "font-family": set.fontOf(node)};
  // as narrow as an empty table, and like one it keeps the margins around it apart
  if (empty) Object.assign(found, {overflow: "hidden", width: 0});
  if (values["line-height"] === "normal" && set.hasLines(node)) found["line-height"] = String(set.normalOf(node));
  for (const it of SIDES) for (const name of [`margin-${it}`, `padding-${it}`, `border-${it}-width`]) found[name] = values[name];
  return found;
}

/** What the job is to say of an element, of the values that the browser computes at a world. */
function wanted(node, values, set) {
  const found = {};
  const display = node.asBlock ? "block" : node.boxed ? "inline-block" : values.display;
  found.display = BOX_DISPLAY[display] || display;
  const moved = values.position === "relative" && values.offsets || values.position === "sticky";
  found.position = moved && set.options.position ? "static" : values.position;
  found.float = values.float.replace("inline-start", "left").replace("inline-end", "right");
  found.clear = values.clear.replace("inline-start", "left").replace("inline-end", "right");
  found.direction = values.direction;
  const aligned = values["text-align"].replace(/^-webkit-/, "");
  found["text-align"] = aligned.replace(/^(?:start|auto|match-parent)$/, "left").replace("end", "right");
  const flows = [values["overflow-x"], values["overflow-y"]].find(it => !/^(?:visible|clip)$/.test(it)) || "visible";
  if (!node.replaced) found.overflow = values.display === "flow-root" && flows === "visible" ? "hidden" : flows;
  found["white-space"] = set.options.preformatted ? spaceSaid(node, values["white-space"]) : values["white-space"];
  found["text-transform"] = set.options.cases ? "none" : values["text-transform"];
  found["list-style-position"] = values["list-style-position"];
  found["font-size"] = values["font-size"];
  found["font-family"] = set.fontOf(node);
  if (set.isLow(node)) found["line-height"] = 0;
  else if (values["line-height"] !== "normal") found["line-height"] = values["line-height"];
  else if (set.hasLines(node)) found["line-height"] = String(set.normalOf(node));
  for (const name of ["width", "height", "min-width", "min-height", "max-width", "max-height"]) found[name] = contentSize(values, name);
  const natural = it => it.inner.every((size, at) => Math.abs(size - node.size[at]) < 0.04);
  const plain = found.width === "auto" && found.height === "auto";
  if (node.replaced && values.inner && !(plain && set.samplesOf(node).every(natural))) {
    ["width", "height"].forEach((name, at) => { if (found[name] === "auto") found[name] = values.inner[at]; });
  }
  for (const it of SIDES) for (const name of [`margin-${it}`, `padding-${it}`, `border-${it}-width`]) found[name] = values[name];
  if (node.headless) found["margin-top"] = 0;
  const stands = /^inline/.test(found.display) && found.float === "none";
  found["vertical-align"] = stands || /^table/.test(display) ? values["vertical-align"] : "baseline";
  found["text-indent"] = values["text-indent"];
  for (const name of ["letter-spacing", "word-spacing"]) found[name] = set.options.spacing ? 0 : values[name];
  return found;
}

/** What the profile computes for an element, as the browser tells it of the job's copy. */
function given(values, set) {
  const found = {...values};
  found.overflow = values["overflow-x"];
  found["font-family"] = set.fonts.taken(values["font-family"]);
  found["line-height"] = values["line-height"] === "normal" ? "1.2" : values["line-height"];
  found["text-align"] = values["text-align"].replace(/^(?:start|-webkit-auto)$/, "left");
  if (!/^inline/.test(values.display) || values.float !== "none") found["vertical-align"] = values["vertical-align"];
  return found;
}

/** The same to within what no box shows. */
function alike(one, other) {
  if (typeof one === "number" && typeof other === "number") return Math.abs(one - other) < 0.04;
  if (zero(one) && zero(other)) return true;
  const [a, b] = [one, other].map(it => typeof it === "string" ? parseFloat(it) : NaN);
  if (!Number.isNaN(a) && !Number.isNaN(b) && String(one).endsWith("%") === String(other).endsWith("%")) return Math.abs(a - b) < 0.002;
  return one === other;
}

const UNSAID = /^(?:box-sizing|min-content|max-content|fit-content|stretch|-webkit.*)$/;

/** A value in the profile's words, of what the browser computes at several worlds with these font sizes: px, em, a percentage or a word;
 * null where there is none. */
function fitted(found, sizes) {
  const [low, high] = [Math.min, Math.max].map(it => it(...found));
  if (found.every(it => typeof it === "number")) {
    if (high - low < 0.02) return `${+high.toFixed(4)}px`;
    const ratios = found.map((it, at) => it / sizes[at]);
    const one = ratios[0];
    return found.every((it, at) => Math.abs(it - one * sizes[at]) < 0.04) ? `${+one.toFixed(6)}em` : null;
  }
  const first = found[0];
  const taken = found.every(it => alike(it, first)) && /^(?:-?[\d.]+%?|[-a-z]+)$/.test(first) && !UNSAID.test(first);
  return taken ? String(first) : null;
}

const INHERITED = new Set(["direction", "text-align", "white-space", "text-transform", "list-style-position", "font-size", "font-family",
  "line-height", "text-indent", "letter-spacing", "word-spacing"]);
const OF_TABLES = /^(?:display|float|font-size|font-family|text-align|white-space|line-height)$/;
const UNSIZED = /^(?:font-size|display|position|float|clear|overflow)$/;
const OF_BOXES = /^(?:(?:min-|max-)?(?:width|height))$/;
const REFUSED = {position: /^(?:relative|absolute|fixed)$/, display: /^(?:inline-)?table/, "vertical-align": /^(?:text-)?(?:top|bottom)$/,
  direction: /^rtl$/, "list-style-position": /^inside$/, "white-space": PRE, "text-transform": /^(?:capitalize|uppercase|lowercase)$/};

/** A copy of the job as the profile reads it, which is made to compute what the page computes. */
class Copy {
  constructor(page, tree, texts, set) {
    Object.assign(this, {tree, set, bearers: new Map(), numbers: 0});
    this.frame = new Blank(page);
    const copy = this.frame.page;
    const sheet = text => copy.head.appendChild(Object.assign(copy.createElement("style"), {textContent: text}));
    sheet(`@property ${CONTENT}{syntax:"*";inherits:false} @layer none, profile; @layer none{*{all:unset}}`);
    sheet(`@layer profile{${DEFAULTS}}`);
    this.world = sheet("");
    for (const text of texts) sheet(sheetRead(text, tree.kept));
    this.turned = sheet("");
    copy.body.remove();
    const element = (node, into) => {
      for (const [name, value] of Object.entries(node.attrs)) if (name !== "src") into.setAttribute(name, value);
      if (node.style) into.style.cssText = declarationsRead(node.style);
      this.bearers.set(node, into);
      if (node.tag !== "br") {
        // what stands for generated content is last, so that no other selector sees it
        const isMade = it => Number(tree.kept && MADE[it.made] !== undefined);
        for (const child of [...node.children || []].sort((a, b) => isMade(a) - isMade(b))) {
          if (child.chars === undefined) element(child, into.appendChild(copy.createElement(child.tag)));
        }
      }
    };
    element(tree.root, copy.documentElement);
  }

  end() { this.frame.end(); }

  /** Makes the copy's viewport as wide as at a world. */
  stand(at) {
    this.frame.frame.style.setProperty("width", `${this.set.worlds[at][0]}px`, "important");
    this.world.textContent = `html{--vizlog-size:${this.set.worlds[at][1]}px}`;
  }

  styleOf(of) { return this.frame.frame.contentWindow.getComputedStyle(of); }

  /** The text that the job's own rules make of generated content, or null. */
  contentOf(node) { return contentText(this.styleOf(this.bearers.get(node)).getPropertyValue(CONTENT)); }

  /** Whether the job's own rules, of which these are the selectors, make generated content of an element that has none. */
  makes(node, which, selectors) {
    const bearer = this.bearers.get(node);
    if (!bearer || !selectors.some(it => PSEUDO.exec(it)[1].toLowerCase() === which && bearer.matches(bearerOf(it)))) return false;
    const made = bearer.appendChild(this.frame.page.createElement(MADE[which]));
    const style = this.styleOf(made);
    const found = style.display !== "none" && contentText(style.getPropertyValue(CONTENT)) !== null;
    made.remove();
    return found;
  }

  /** Says at each element, at the present world, what the copy computes otherwise than the page; in rounds, since children inherit. */
  settle(at) {
    this.stand(at);
    for (let round = 0; round < 64; round++) {
      const changes = [];
      const visit = (node, above, before) => {
        if (LEFT_OUT.has(node.tag) || node.made === "break") return;
        const mine = given(valuesOf(this.bearers.get(node)), this.set);
        const differ = this.differences(node, mine, at);
        // lengths in em wait until the font has its size, where it gets one
        const waiting = before || differ.has("font-size") && !above.has("font-size");
        for (const name of differ) {
          if (!(INHERITED.has(name) && above.has(name)) && !(waiting && !UNSIZED.test(name))) changes.push([node, name]);
        }
        if (this.hiddenAt(node, at)) return;
        const passed = new Set([...differ, ...node.unsaid || []]);
        for (const child of node.children || []) if (child.tag) visit(child, passed, waiting);
      };
      visit(this.tree.root, new Set(), false);
      if (!changes.filter(([node, name]) => this.say(node, name)).length) return;
      this.turn();
    }
  }

  comes(node) { return this.tree.kept && MADE[node.made] !== undefined; }
  hiddenAt(node, at) { return node.display === "none" || this.set.wantedAt(node, at).display === "none"; }

  /** Puts what is said by steps into the copy. */
  turn() {
    const found = [...this.bearers].filter(([, bearer]) => bearer.hasAttribute(TURNED_AT));
    this.turned.textContent = found.flatMap(([node, bearer]) =>
      rulesBySteps(`[${TURNED_AT}="${bearer.getAttribute(TURNED_AT)}"]`, node.pins)).join("\n");
  }

  differences(node, mine, at) {
    // generated content that stays as it is comes and goes by the sheets' own rules
    if (this.hiddenAt(node, at)) return new Set(mine.display === "none" || this.comes(node) ? [] : ["display"]);
    const theirs = this.set.wantedAt(node, at);
    const found = new Set();
    for (const [name, value] of Object.entries(theirs)) {
      if (alike(value, mine[name]) || node.unsaid && node.unsaid.has(name)) continue;
      // of generated content the browser tells what percentages come to
      if (node.made && percent(mine[name])) continue;
      if (OF_BOXES.test(name) && theirs.display === "inline" && !node.replaced) continue;
      if (name === "text-align" && /^(?:left|justify)$/.test(value) && /^(?:left|justify)$/.test(mine[name])) continue;
      if (/table/.test(theirs.display) && !OF_TABLES.test(name)) continue;
      found.add(name);
    }
    return found;
  }

  /** Says a value at an element; false where it can't be said. */
  say(node, name) {
    if (node.pins.has(name) && name !== "display") return this.cannot(node, name);
    const value = this.valueOf(node, name);
    const each = value instanceof BySteps ? value.values : [value];
    if (each.includes(null) || each.some(it => REFUSED[name] && REFUSED[name].test(it)) || String(node.pins.get(name)) === String(value)
        || name === "display" && each.includes("contents")) return this.cannot(node, name);
    this.put(node, name, value);
    return true;
  }

  /** A value in the profile's words: one for all worlds, or one for each step of the width; null where there is none. */
  valueOf(node, name) {
    if (node.display === "none") return "none";
    const {worlds, ladders} = this.set;
    const shown = name === "display" && !this.comes(node) ? worlds.map((_, at) => at) : this.set.shownAt(node);
    const found = bySteps(ladders, worlds, shown, at => this.fitted(node, name, at));
    return found === null && name === "font-size" ? this.rounded(node, shown) : found;
  }

  /** A value in the profile's words for some worlds. */
  fitted(node, name, at) {
    const found = at.map(it => this.set.wantedAt(node, it)[name]);
    if (name === "font-family") return JSON.stringify(found[0]);
    return fitted(found, name === "font-size" ? this.set.sizesAround(node, at) : this.set.sizesOf(node, at));
  }

  put(node, name, value) {
    node.pins.set(name, value);
    if (/^border-.*-width$/.test(name)) {
      const kind = it => it === "0px" ? "none" : "solid";
      node.pins.set(name.replace("width", "style"), value instanceof BySteps ? value.map(kind) : kind(value));
    }
    const bearer = this.bearers.get(node);
    if (value instanceof BySteps) bearer.setAttribute(TURNED_AT, bearer.getAttribute(TURNED_AT) ?? String(this.numbers++));
    for (const [one, it] of single(node.pins)) bearer.style.setProperty(one, one === "font-family" ? `vizlog-none,${it}` : it, "important");
    this.set.told(node, name, String(value));
  }

  /** A font size that the browser rounds to whole px (those of the generic family monospace): as it is in the middle of the range. */
  rounded(node, at) {
    const found = at.map(it => this.set.wantedAt(node, it)["font-size"]), around = this.set.sizesAround(node, at);
    const ratios = found.map((it, place) => it / around[place]).sort((a, b) => a - b);
    const middle = ratios[ratios.length >> 1];
    const most = Math.max(...found.map((it, place) => Math.abs(it - middle * around[place])));
    if (most > 0.6) return null;
    (node.unsaid = node.unsaid || new Set()).add("font-size");
    const off = `${called(node)}, up to ${most.toFixed(2)} px`;
    this.set.findings.add("otherwise", "a font size that the browser rounds to whole px", off, {node});
    return `${+middle.toFixed(6)}em`;
  }

  cannot(node, name) {
    node.unsaid = node.unsaid || new Set();
    if (!node.unsaid.has(name)) {
      node.unsaid.add(name);
      this.set.unsaid(node, name);
    }
    return false;
  }
}

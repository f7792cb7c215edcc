// ---- texts in the profile's own words: kept white space, letters of another case, places where lines break

const NO_BREAK = "\u00a0";
const PRE = /^(?:pre|pre-wrap|pre-line|break-spaces)$/;

/** Whether a node takes part in the lines around it and what it holds too. */
const flowsInline = node => node.tag && node.display === "inline" && !node.replaced && !node.asBlock && !node.out && node.tag !== "br";

/** What `white-space` comes to in the profile's words: of `pre-wrap` where no line wraps the same as of `pre`. */
function spaceSaid(node, mode) {
  if (mode === "pre") return "nowrap";
  if (mode === "pre-wrap" || mode === "break-spaces") return node.wraps ? "normal" : "nowrap";
  return mode === "pre-line" ? "normal" : mode;
}

/** Puts kept white space, and letters of another case, into the texts themselves. */
class Texts {
  constructor(tree, fonts, options, findings) {
    Object.assign(this, {tree, fonts, options, findings});
    this.line = "";
    this.at = 0;
  }

  say() { this.children(this.tree.root); }

  children(node) {
    const made = [];
    for (const child of node.children || []) {
      if (child.chars !== undefined) made.push(...this.text(child, node));
      else {
        const inner = flowsInline(child);
        if (!inner) this.at = 0;
        this.children(child);
        if (!inner) this.at = 0;
        made.push(child);
      }
    }
    if (node.children) node.children = made.filter(it => it.chars !== "");
  }

  text(text, node) {
    const style = getComputedStyle(text.parent, text.pseudo);
    text.chars = this.cased(text.chars, style);
    const mode = style.whiteSpace;
    if (!PRE.test(mode) || !this.options.preformatted) {
      text.chars = PRE.test(mode) ? text.chars : text.chars.replace(/[ \t\r\n]+/g, " ");
      return [text];
    }
    if (mode === "pre-line") text.chars = text.chars.replace(/[ \t\r]+/g, " ").replace(/ ?\n ?/g, "\n");
    this.findings.add("said", `white-space: ${mode} as breaks and spaces that don't break (texts)`, short(text.chars, 30));
    const soft = mode === "pre-line" || node.wraps;
    if (node.wraps && mode !== "pre-line") {
      this.findings.add("otherwise", `white-space: ${mode} where lines wrap: kept spaces are no places to break`, called(node), {node});
    }
    const found = [];
    text.chars.split("\n").forEach((piece, at) => {
      if (at) {
        found.push({tag: "br", made: "break", attrs: {}, pins: new Map(), display: "inline"});
        this.at = 0;
      }
      const chars = mode === "pre-line" ? piece : this.kept(piece, style, soft, node);
      if (chars) found.push({...text, chars});
    });
    return found;
  }

  /** A line's piece with its spaces kept and its tabs to their stops. */
  kept(piece, style, soft, node) {
    let made = "";
    const wide = text => this.fonts.wide(text, style);
    for (const run of piece.match(/\t| +|[^\t ]+/g) || []) {
      let put = run;
      if (run === "\t") {
        const space = wide(" ");
        const stop = (parseFloat(style.tabSize) || 0) * (/px$/.test(style.tabSize) ? 1 : space);
        if (!space || !stop) { made += NO_BREAK; continue; }
        const left = stop - ((this.at + 1e-3) % stop);
        const many = Math.max(1, Math.round((left < space / 2 ? left + stop : left) / space));
        if (Math.abs(many * space - left) > 0.1) {
          this.findings.add("otherwise", "a tab that isn't a whole number of spaces", called(node), {node});
        }
        put = NO_BREAK.repeat(many);
      } else if (run[0] === " ") {
        put = soft && this.at ? NO_BREAK.repeat(run.length - 1) + " " : NO_BREAK.repeat(run.length);
      }
      this.at += run === "\t" ? put.length * wide(" ") : wide(run);
      made += put;
    }
    return made;
  }

  cased(chars, style) {
    const how = style.textTransform;
    if (!this.options.cases || how === "none") return chars;
    const put = {uppercase: () => chars.toUpperCase(), lowercase: () => chars.toLowerCase(),
      capitalize: () => chars.replace(/(^|[^\p{L}\p{N}'’_])(\p{L})/gu, (_, before, letter) => before + letter.toUpperCase())}[how];
    if (put && chars.trim()) this.findings.add("said", `text-transform: ${how} in the texts themselves`, short(chars, 30));
    return put ? put() : chars;
  }
}

// ---- places where browsers break lines and the profile doesn't

const BREAK_TAG = "vizlog-break";

/** Finds the places in words at which the browser breaks lines, by laying them out without any width. */
class Breaker {
  constructor(blank) { Object.assign(this, {blank, known: new Map()}); }

  key(word, style, lang) { return [style.wordBreak, style.lineBreak, lang, word].join("\n"); }

  ask(word, style, lang) {
    const text = `word-break:${style.wordBreak};line-break:${style.lineBreak}`;
    this.known.set(this.key(word, style, lang), {word, style: text, lang});
  }

  /** Lays out what was asked. */
  measure() {
    const page = this.blank.page;
    const rows = [...this.known.values()].map(row => {
      const made = page.createElement("div");
      made.style.cssText = `all:initial;display:block;width:0;font:16px/20px monospace;hyphens:manual;${row.style}`;
      if (row.lang) made.lang = row.lang;
      made.textContent = row.word;
      page.body.append(made);
      return [row, made];
    });
    const range = page.createRange();
    for (const [row, made] of rows) {
      row.places = [];
      let last = null;
      for (let at = 0; at < row.word.length; at += row.word.codePointAt(at) > 0xffff ? 2 : 1) {
        range.setStart(made.firstChild, at);
        range.setEnd(made.firstChild, at + (row.word.codePointAt(at) > 0xffff ? 2 : 1));
        const box = range.getClientRects()[0];
        if (!box) continue;
        if (last !== null && box.top > last + 5 && row.word[at - 1] !== "\u00ad") row.places.push(at);
        last = box.top;
      }
    }
    for (const [, made] of rows) made.remove();
  }

  places(word, style, lang) { return this.known.get(this.key(word, style, lang)).places; }
}

/** The lines' contents: texts that follow one another without anything but edges of inline boxes between. */
function runsOf(tree) {
  const runs = [];
  let run = null;
  const flush = () => { if (run && run.chars.length) runs.push(run); run = {chars: "", texts: []}; };
  const visit = node => {
    for (const child of node.children || []) {
      if (child.chars !== undefined) {
        const style = getComputedStyle(child.parent, child.pseudo);
        const lines = spaceSaid(node, style.whiteSpace) !== "nowrap";
        run.texts.push({text: child, node, from: run.chars.length, style, lines});
        run.chars += child.chars;
      } else if (child.display !== "none" && !LEFT_OUT.has(child.tag)) {
        const inner = flowsInline(child);
        if (!inner) flush();
        visit(child);
        if (!inner) flush();
      }
    }
  };
  flush();
  visit(tree.root);
  flush();
  return runs;
}

/** Letters that stand nearer to the next one than by their advances become characters of their own, with the advance they have there. */
function sayKerning(tree, exporter, findings) {
  const set = exporter.fonts;
  for (const node of tree.nodes) for (const it of node.chars || "") set.inUse.add(it.codePointAt(0));
  const known = new Map();
  const edges = ["left", "right"].flatMap(it => [`padding-${it}`, `margin-${it}`, `border-${it}-width`]);
  const edged = node => flowsInline(node) && node.samples && edges.some(it => !zero(exporter.first(node)[it]));
  for (const {chars, texts} of runsOf(tree)) {
    const letters = [];
    for (const it of texts) {
      const font = exporter.fontOf(it.node);
      const bare = it.style.fontKerning === "none" || edged(it.node);
      const face = faceOf(it.style);
      for (let at = 0; at < it.text.chars.length; at++) letters.push(bare ? null : {font, face, list: it.style.fontFamily, it, at});
    }
    const by = new Float64Array(chars.length);
    for (let at = 0; at + 1 < chars.length; at++) {
      const [one, other] = [letters[at], letters[at + 1]];
      if (!one || !other || one.font !== other.font || /[\ud800-\udfff]/.test(chars[at] + chars[at + 1])) continue;
      const key = [one.font, chars[at], chars[at + 1]].join("\n");
      if (!known.has(key)) known.set(key, set.fonts.kern(chars[at], chars[at + 1], one.list, one.face));
      const kern = known.get(key);
      if (Math.abs(kern) < 0.0005) continue;
      // a space stays what it is, so that lines break at it: what is before it takes its share
      const bearer = chars[at] === " " ? at - 1 : at;
      if (bearer >= 0 && letters[bearer] && chars[bearer] !== " " && letters[bearer].font === one.font) by[bearer] += kern;
    }
    const made = texts.map(it => [...it.text.chars].length === it.text.chars.length ? it.text.chars.split("") : null);
    let many = 0;
    by.forEach((kern, at) => {
      if (Math.abs(kern) < 0.0005 || !letters[at]) return;
      const place = texts.indexOf(letters[at].it);
      if (!made[place]) return;
      made[place][letters[at].at] = set.near(chars[at], letters[at].font, kern);
      many += 1;
    });
    texts.forEach((it, at) => {
      if (!made[at]) return;
      it.text.plain = it.text.chars;
      it.text.chars = made[at].join("");
    });
    const what = "letters that a font sets nearer to the next one, as characters of their own";
    if (many) findings.add("said", what, short(chars, 30), {count: many});
  }
}

/** Puts an empty inline-block at each place within a word where the browser may break a line. */
function sayBreaks(tree, exporter, options, findings) {
  const blank = exporter.blank;
  const runs = runsOf(tree);
  for (const it of runs) it.chars = it.texts.map(one => one.text.plain ?? one.text.chars).join("");
  const breaker = new Breaker(blank);
  const asked = [];
  for (const it of runs) {
    for (const found of it.chars.matchAll(/[^ \t\n\r]+/g)) {
      const first = it.texts.findLast(one => one.from <= found.index);
      const anywhere = first.style.wordBreak === "break-all" || first.style.lineBreak === "anywhere";
      if (!anywhere && !/[^A-Za-z0-9]/.test(found[0].slice(0, -1)) && !/[^\x00-\x7f]/.test(found[0])) continue;
      const lang = first.text.parent.closest("[lang]")?.lang || "";
      if (/^(?:anywhere|break-word)$/.test(first.style.overflowWrap) || first.style.wordBreak === "break-word") {
        if (exporter.fonts.fonts.wide(found[0], first.style) > exporter.least(first.node)) {
          const what = "overflow-wrap: a word that fits on no line breaks nowhere (words)";
          findings.add("otherwise", what, short(found[0], 30), {node: first.node});
        }
      }
      if (found[0].includes("\u00ad")) {
        findings.add("otherwise", "no line breaks at soft hyphens (words)", short(found[0], 30), {node: first.node});
      }
      breaker.ask(found[0], first.style, lang);
      asked.push({run: it, word: found[0], at: found.index, style: first.style, lang});
    }
  }
  breaker.measure();
  const cuts = new Map();
  for (const {run: it, word, at, style, lang} of asked) {
    for (const place of breaker.places(word, style, lang)) {
      const textAt = one => it.texts.findLast(text => text.from <= one && text.text.chars.length);
      const [before, behind] = [at + place - 1, at + place].map(textAt);
      if (!before.lines || !behind.lines) continue;
      if (!cuts.has(before)) cuts.set(before, []);
      cuts.get(before).push({place: at + place - before.from, word});
    }
  }
  let left = 4096 - tree.elements;
  for (const [{text, node}, places] of cuts) {
    const found = [];
    let from = 0;
    for (const {place, word} of places) {
      const what = "a line may break within a word, where browsers break it";
      if (left <= 0 || !options.breaks) {
        findings.add("otherwise", "a line breaks within a word in browsers alone", short(word, 30), {node});
        continue;
      }
      left -= 1;
      findings.add("said", what, short(word, 30));
      if (place > from) found.push({...text, plain: undefined, chars: text.chars.slice(from, place)});
      found.push({tag: BREAK_TAG, made: "box", from: text.parent, attrs: {}, pins: new Map(), display: "inline-block", children: []});
      from = place;
    }
    if (from < text.chars.length) found.push({...text, plain: undefined, chars: text.chars.slice(from)});
    node.children.splice(node.children.indexOf(text), 1, ...found);
  }
}

// ---- blocks in inline boxes

const outOfFlow = node => node.out || node.display === "none" || LEFT_OUT.has(node.tag);
const BLOCKS = /^(?:block|list-item|flow-root|flex|grid|table)$/;
const blockLevel = node => node.tag && !outOfFlow(node) && (node.asBlock || BLOCKS.test(node.display));
const inlineContent = node => node.chars !== undefined ? /[^ \t\r\n]/.test(node.chars) : !outOfFlow(node) && !blockLevel(node);

/** An inline box without edges that holds blocks is laid out as a block would be, where no line goes on at its ends. */
function sayBlocks(tree, exporter, options, findings) {
  const visit = (node, parent) => {
    for (const child of node.children || []) if (child.tag) visit(child, node);
    if (!parent || !flowsInline(node) || !(node.children || []).some(blockLevel)) return;
    const first = node.samples && exporter.first(node);
    const bare = first && SIDES.every(it => ["margin-", "padding-", "border-"].every(edge => {
      const value = first[edge === "border-" ? `border-${it}-width` : edge + it];
      return value === 0 || value === "0%" || value === "auto";
    }));
    const inside = node.children.filter(it => inlineContent(it) || blockLevel(it));
    const around = parent.children.filter(it => it === node || inlineContent(it) || blockLevel(it));
    const at = around.indexOf(node);
    const ends = [[inside[0], around[at - 1]], [inside[inside.length - 1], around[at + 1]]];
    const goesOn = ends.some(pair => pair.every(it => it && inlineContent(it)));
    const same = !inside.some(inlineContent) || ["fontSize", "lineHeight", "fontFamily", "verticalAlign"].every(it =>
      getComputedStyle(node.of)[it] === getComputedStyle(node.of.parentElement)[it]);
    if (!options.blocks || !bare || goesOn || !same || !node.of) {
      findings.add("refused", "block in an inline box", `${called({...node, number: ""})}`, {node});
      return;
    }
    node.asBlock = true;
    findings.add("said", "an inline box that holds blocks, without edges of its own, as a block", `<${node.tag}>`);
  };
  visit(tree.root, null);
}

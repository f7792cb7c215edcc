// ---- the page as a tree

/** Elements that never make a box and whose content is no text of the page. */
const LEFT_OUT = new Set(["head", "script", "style", "title", "meta", "link", "base", "noscript", "template", "source", "track",
  "param", "area", "datalist", "noembed", "rp"]);
const REPLACED = new Set(["img", "video", "canvas", "iframe", "embed", "object", "svg", "input", "select", "textarea", "meter",
  "progress", "audio"]);
const HINTS = ["width", "height", "align", "valign", "border", "cellpadding", "cellspacing", "hspace", "vspace", "nowrap", "dir",
  "size", "face", "clear"];
const MEASURED = {input: ["size"], select: ["size"], canvas: ["width", "height"], svg: ["width", "height"]};

/** The string that generated content comes to, or null where it is no string. */
function contentText(content) {
  const pieces = content.match(/"(?:\\[^]|[^"\\])*"|'(?:\\[^]|[^'\\])*'|[^\s"']+/g) || [];
  if (!pieces.length || !pieces.every(it => /["']/.test(it[0]))) return null;
  return pieces.map(it => it.slice(1, -1).replace(/\\([0-9a-f]{1,6})\s?|\\(?:\r\n|[\n\r\f])|\\([^])/gi, (_, code, mark) =>
    code ? String.fromCodePoint(parseInt(code, 16) || 0xfffd) : mark || "")).join("");
}

/** A string as a sheet has it. */
const quotedText = text => `"${text.replace(/["\\\x00-\x1f\x7f]/g, it => `\\${it.codePointAt(0).toString(16)} `)}"`;

/** The display of an element, none also of what lies in one without a box: what a closed `details` or another element holds back. */
function shownDisplay(of) {
  const {display} = of.ownerDocument.defaultView.getComputedStyle(of);
  return display !== "none" && display !== "contents" && of.checkVisibility && !of.checkVisibility() ? "none" : display;
}

/** Whether generated content is there at the present world. */
function isMade(node) {
  const style = getComputedStyle(node.from, `::${node.made}`);
  return !MADE[node.made] || !/^(?:none|normal)$/.test(style.content) && style.display !== "none" && shownDisplay(node.from) !== "none";
}

/** The nodes of the page: an element has `tag`, `of` (the browser's; none for one that is made), `children`; a text has `chars`. */
class Tree {
  /** Reads the elements below a root: with the attributes `names`, that selectors ask for, and with `gaps`, those that never have a box. */
  constructor(root, names, gaps, options, findings) {
    Object.assign(this, {names, gaps, options, findings});
    this.root = this.element(root);
  }

  element(of) {
    const tag = of.localName.toLowerCase();
    const node = {tag, of, attrs: {}, pins: new Map()};
    for (const {name, value} of of.attributes) {
      const low = name.toLowerCase();
      if (low === "class" || low === "id" ? value.trim() : this.names.has(low)) node.attrs[low] = value;
      if (HINTS.includes(low) && !(MEASURED[tag] || []).includes(low)) {
        this.findings.add("said", `<${tag} ${low}>, by what the browser makes of it`, `${low}="${short(value, 20)}"`);
      }
    }
    const style = (of.getAttribute("style") || "").trim();
    if (style) node.style = style;
    node.display = "none";
    if (LEFT_OUT.has(tag)) return node;
    if (REPLACED.has(tag)) node.replaced = false;
    else if (tag !== "br") node.children = this.children(of);
    this.show(node);
    if (of.shadowRoot) this.findings.add("otherwise", "what an element holds in its shadow tree is not read", `<${tag}>`, {node});
    return node;
  }

  children(of) {
    const found = [];
    for (const child of of.childNodes) {
      if (child.nodeType === 1) {
        if (!LEFT_OUT.has(child.localName) || (this.gaps && child.localName !== "head")) found.push(this.element(child));
      } else if (child.nodeType === 3 || child.nodeType === 4) {
        const last = found[found.length - 1];
        // a text that a comment or a script parted is one text
        if (last && last.chars !== undefined) last.chars += child.data;
        else if (child.data) found.push({chars: child.data, parent: of});
      }
    }
    for (const it of found) {
      if (it.chars !== undefined) it.chars = it.chars.toWellFormed();
    }
    return found;
  }

  /** Takes an element that was hidden until now, and its generated content that was not there, at the present world. */
  show(node, place = () => {}) {
    const display = shownDisplay(node.of);
    if (LEFT_OUT.has(node.tag) || display === "none") return;
    if (node.display === "none") {
      node.display = display;
      if (REPLACED.has(node.tag)) node.replaced = true;
      place(node);
    }
    if (node.children && this.options.generated) this.generate(node, place);
  }

  /** Generated content as elements of its own; `unmade` has what is not there at any world yet. */
  generate(node, place) {
    node.unmade = node.unmade || new Set();
    for (const [which, tag] of Object.entries(MADE)) {
      const known = node.children.find(it => it.made === which);
      const style = this.computed(node.of, `::${which}`);
      if (/^(?:none|normal)$/.test(style.content) || style.display === "none") {
        if (!known) node.unmade.add(which);
        continue;
      }
      node.unmade.delete(which);
      const text = contentText(style.content);
      if (known) {
        if (text !== known.content) {
          this.findings.add("otherwise", `:${which} with another text at other widths`, `<${node.tag}>: ${short(style.content, 30)}`, {node});
        }
        continue;
      }
      if (text === null) {
        this.findings.add("refused", `:${which} with ${short(style.content, 30)}`, `<${node.tag}>`, {node});
        continue;
      }
      const edges = SIDES.some(it => parseFloat(style[`margin-${it}`]) || parseFloat(style[`padding-${it}`])
        || (parseFloat(style[`border-${it}-width`]) && !/^(?:none|hidden)$/.test(style[`border-${it}-style`])));
      if (!text && style.display === "inline" && !edges && style.float === "none" && !/^(?:absolute|fixed)$/.test(style.position)) continue;
      const made = {tag, made: which, content: text, from: node.of, attrs: {}, pins: new Map(), display: style.display, children: []};
      if (text) made.children.push({chars: text, parent: node.of, pseudo: `::${which}`});
      if (which === "before") node.children.unshift(made);
      else node.children.push(made);
      place(made);
    }
  }

  computed(of, pseudo) { return of.ownerDocument.defaultView.getComputedStyle(of, pseudo); }

  /** Each node in document order, with its parent. */
  walk(visit, node = this.root, parent = null) {
    if (visit(node, parent) === false) return;
    for (const child of [...node.children || []]) this.walk(visit, child, node);
  }

  /** The generated content. */
  get made() { return this.nodes.filter(it => MADE[it.made]); }

  /** Generated content stays as it is where each piece is a text or none, and else is said as elements, which rules meet by their tag. */
  keep(findings) {
    const alone = it => it.children.length === 0 || it.children.length === 1 && it.children[0].chars !== undefined;
    this.kept = this.options.generated && this.made.every(alone);
    for (const it of this.kept ? [] : this.made) {
      findings.add("said", `:${it.made} as an element <${it.tag}>`, `in <${it.from.localName}>: ${short(it.content, 30)}`);
    }
  }

  /** What is known to be laid out otherwise at a node that is written, its generated content with it. */
  causesAt(node) {
    const made = this.kept ? (node.children || []).filter(it => MADE[it.made]) : [];
    return [node, ...made].flatMap(it => [...it.causes || []]);
  }

  /** Numbers the nodes, and counts. Generated content that stays as it is has the number of its element, since it isn't written. */
  finish() {
    Object.assign(this, {nodes: [], written: [], elements: 0, depth: 0, characters: 0});
    const visit = (node, depth, bearer) => {
      const inside = bearer !== null || this.kept && MADE[node.made] !== undefined;
      node.number = inside ? bearer : this.written.length;
      this.nodes.push(node);
      if (!inside) this.written.push(node);
      if (node.chars !== undefined) { this.characters += inside ? 0 : [...node.chars].length; return; }
      this.elements += inside ? 0 : 1;
      this.depth = Math.max(this.depth, inside ? 0 : depth);
      for (const child of node.children || []) visit(child, depth + 1, inside || this.kept && MADE[child.made] ? node.number : null);
    };
    visit(this.root, 1, null);
  }
}

// ---- sizes of replaced elements

/** Measures as the browser would without the page's sheets, in a frame of its own. */
class Blank {
  constructor(page, sheet = "") {
    this.frame = page.createElement("iframe");
    const style = {all: "initial", position: "absolute", width: "800px", height: "600px", visibility: "hidden"};
    for (const [name, value] of Object.entries(style)) this.frame.style.setProperty(name, value, "important");
    page.body.append(this.frame);
    this.page = this.frame.contentDocument;
    this.page.open();
    this.page.write(`<!DOCTYPE html><html><head><style>${sheet}</style></head><body></body></html>`);
    this.page.close();
  }
  /** What a function finds at a copy of an element. */
  with(element, look) {
    this.page.body.append(element);
    const found = look(element, this.frame.contentWindow.getComputedStyle(element));
    element.remove();
    return found;
  }
  end() { this.frame.remove(); }
}

/** The width and height of an element's content box. */
function contentBox(of, style) {
  const edges = (one, other) => [`padding${one}`, `padding${other}`, `border${one}Width`, `border${other}Width`]
    .reduce((sum, it) => sum + (parseFloat(style[it]) || 0), 0);
  const box = of.getBoundingClientRect();
  return [box.width - edges("Left", "Right"), box.height - edges("Top", "Bottom")].map(it => Math.max(0, it));
}

function sizer(blank, findings) {
  const sized = (node, of, tag) => {
    if (tag === "img" || (tag === "input" && of.type === "image")) {
      if (!of.naturalWidth) findings.add("otherwise", "an image that is not loaded is 0 by 0", of.getAttribute("src") || "<img>", {node});
      return [of.naturalWidth || 0, of.naturalHeight || 0];
    }
    if (tag === "video") return of.videoWidth ? [of.videoWidth, of.videoHeight] : [300, 150];
    if (tag === "canvas") return [of.width, of.height];
    if (tag === "svg") {
      const [width, height] = [["width", of.width], ["height", of.height]].map(([name, it]) =>
        of.hasAttribute(name) && it && it.baseVal.unitType !== 2 ? it.baseVal.value : null);
      const view = of.viewBox && of.viewBox.baseVal;
      const ratio = view && view.width && view.height ? view.width / view.height : null;
      if (width !== null) return [width, height !== null ? height : ratio ? width / ratio : 150];
      if (height !== null) return [ratio ? height * ratio : 300, height];
      return [300, ratio ? 300 / ratio : 150];
    }
    if (tag === "iframe" || tag === "embed" || tag === "object") return [300, 150];
    return blank.with(blank.page.importNode(of, true), (copy, style) => {
      copy.removeAttribute("style");
      copy.removeAttribute("class");
      copy.removeAttribute("hidden");
      return contentBox(copy, style);
    });
  };
  return node => sized(node, node.of, node.tag).map(it => {
    if (it > 16384) findings.add("refused", "an image of more than 16,384 px", `<${node.tag}>`);
    return Math.max(0, Math.min(Math.round(it), 16384));
  });
}

/** What browsers give no ratio, and controls a size that goes with their font: the profile keeps to the job's size and its ratio. */
const NO_RATIO = new Set(["input", "select", "textarea", "meter", "progress", "iframe", "embed", "object", "audio"]);

// ---- style sheets: statements, declarations and selectors (CSS 2.1, chapters 4 and 5)

const ADDRESS = /url\(\s*(?:"(?:\\[^]|[^"\\\n])*"|'(?:\\[^]|[^'\\\n])*'|(?:[!#$%&*-\[\]-~\u00a0-\uffff]|\\[^])*)\s*\)/iy;
const CLOSERS = {"(": ")", "[": "]", "{": "}"};

function sticky(pattern, text, at) {
  pattern.lastIndex = at;
  const found = pattern.exec(text);
  return found && found[0].length ? at + found[0].length : null;
}

/** The end of the token at a place; of an opening bracket, the end of what it holds. */
function endOf(text, at) {
  const first = text[at];
  if (first === "/" && text[at + 1] === "*") {
    const end = text.indexOf("*/", at + 2);
    return end < 0 ? text.length : end + 2;
  }
  if (first === '"' || first === "'") {
    let end = at + 1;
    while (end < text.length && text[end] !== first && text[end] !== "\n") end += text[end] === "\\" ? 2 : 1;
    return Math.min(end + 1, text.length);
  }
  if (first === "\\") return Math.min(at + 2, text.length);
  if (CLOSERS[first]) {
    let end = at + 1;
    while (end < text.length && text[end] !== CLOSERS[first]) end = endOf(text, end);
    return Math.min(end + 1, text.length);
  }
  return ((first === "u" || first === "U") && sticky(ADDRESS, text, at)) || at + 1;
}

/** The place of the first of some marks from a place on, outside brackets, strings and comments. */
function seek(text, at, marks) {
  while (at < text.length && !marks.includes(text[at])) {
    const plain = text[at] === "u" || text[at] === "U" ? null : sticky(/[a-tv-zA-TV-Z0-9\s-]+/y, text, at);
    at = plain || endOf(text, at);
  }
  return Math.min(at, text.length);
}

/** The statements of a sheet: each with its place, what stands before its block, and its block or null. */
function statements(text) {
  const found = [];
  let at = 0;
  for (;;) {
    const skipped = sticky(/(?:\s+|\/\*[^]*?(?:\*\/|$)|<!--|-->)+/y, text, at);
    if (skipped) at = skipped;
    if (at >= text.length) return found;
    const end = seek(text, at, text[at] === "@" ? "{;" : "{");
    const block = text[end] === "{" ? endOf(text, end) : null;
    const inner = block && text.slice(end + 1, text[block - 1] === "}" ? block - 1 : block);
    found.push({at, end: block || Math.min(end + 1, text.length), head: text.slice(at, end).trim(), block: block ? inner : null});
    at = found[found.length - 1].end;
  }
}

const bare = text => text.replace(/\/\*[^]*?(?:\*\/|$)/g, " ").trim();

/** The declarations of a block or style attribute: names in lower case, values without comments, and whether they are `!important`. */
function declarations(text) {
  const found = [];
  for (let at = 0; at < text.length;) {
    let end = seek(text, at, text.slice(at).trimStart()[0] === "@" ? ";{" : ";");
    if (text[end] === "{") end = endOf(text, end) - 1;
    const [, name, value] = /^([^:]*):([^]*)$/.exec(bare(text.slice(at, end))) || [];
    if (name !== undefined) {
      const plain = value.replace(/!\s*important\s*$/i, "");
      found.push({name: name.trim().toLowerCase(), value: plain.trim().toLowerCase(), raw: plain.trim(), important: plain !== value});
    }
    at = end + 1;
  }
  return found;
}

const NAME = "-?(?:[_a-zA-Z\\u00a0-\\uffff]|\\\\[^])(?:[-\\w\\u00a0-\\uffff]|\\\\[^])*";
const STRING = `(?:"(?:\\\\[^]|[^"\\\\])*"|'(?:\\\\[^]|[^'\\\\])*')`;
const TEST = `(?:[.#]${NAME}|\\[\\s*${NAME}\\s*(?:[~|]?=\\s*(?:${NAME}|${STRING})\\s*)?\\]` +
  `|:(?:first-child|link|visited|hover|active|focus)(?![-\\w(]))`;
const LANG = `:lang\\(\\s*${NAME}\\s*\\)`;
const ENDING = ":(?:first-line|first-letter)(?![-\\w(])";
const PSEUDO = /::?(before|after)$/i;
const compound = test => `(?:(?:\\*|${NAME})${test}*|${test}+)`;
const chain = test => `${compound(test)}(?:(?:\\s*[>+]\\s*|\\s+)${compound(test)})*`;
const READ = new RegExp(`^${chain(TEST)}$`, "i");
const WIDER = new RegExp(`^(?:${chain(`(?:${TEST}|${LANG})`)})?(?:${ENDING})?$`, "i");
/** A selector without its pseudo-element: what meets the element that has the generated content. */
const bearerOf = part => PSEUDO.test(part) ? part.replace(PSEUDO, "").replace(/([>+\s])$/, "$1*") || "*" : part;

/** The parts of a group of selectors. */
function parts(group) {
  const found = [];
  for (let at = 0; at <= group.length;) {
    const end = seek(group, at, ",");
    found.push(bare(group.slice(at, end)));
    at = end + 1;
  }
  return found;
}

/** How a group of selectors is read: "read", "dropped", or the pseudo-class or pseudo-element that refuses the page. A pseudo-element with
 * generated content is read. */
function selectorKind(group) {
  const each = parts(group);
  if (each.every(it => READ.test(bearerOf(it)))) return "read";
  if (!each.every(it => it && WIDER.test(bearerOf(it)))) return "dropped";
  return each.map(it => new RegExp(`${LANG}|${ENDING}`, "i").exec(bearerOf(it))).find(it => it)[0].toLowerCase().replace(/\(.*/, "()");
}

// ---- declarations: what the profile's table of properties takes

const NUMBER = "(?:\\d*\\.)?\\d+";
const ZERO = "[-+]?(?:0*\\.)?0+";
const UNITS = "(?:px|in|cm|mm|pt|pc|em|ex)";
const PLUS = `\\+?${NUMBER}${UNITS}|${ZERO}`;
const ANY = `[-+]?${NUMBER}${UNITS}|${ZERO}`;
const SIZE = `${PLUS}|\\+?${NUMBER}%`;
const SHIFT = `${ANY}|[-+]?${NUMBER}%`;
const STYLES = "none|hidden|dotted|dashed|solid|double|groove|ridge|inset|outset";
const WIDTHS = `thin|medium|thick|${PLUS}`;
const SIDES = ["top", "right", "bottom", "left"];
const upTo4 = one => `(?:${one})(?:\\s+(?:${one})){0,3}`;
const COLOUR = `#[-\\w]+|[a-z][-\\w]*(?:\\([^)]*\\))?`;
const BORDER = `(?:${WIDTHS}|${COLOUR})(?:\\s+(?:${WIDTHS}|${COLOUR})){0,2}`;
const FONTSIZE = `xx-small|x-small|small|medium|large|x-large|xx-large|larger|smaller|${SIZE}`;
const LINE = `normal|\\+?${NUMBER}|${SIZE}`;
const FAMILY = `(?:${STRING}|${NAME}(?:\\s+${NAME})*)(?:\\s*,\\s*(?:${STRING}|${NAME}(?:\\s+${NAME})*))*`;
/** For each property what is taken and what is refused by name; all else is dropped. */
const TABLE = {
  display: ["none|block|inline|inline-block|list-item",
    "table|inline-table|table-row|table-row-group|table-header-group|table-footer-group|table-column|table-column-group|table-cell" +
    "|table-caption"],
  position: ["static", "relative|absolute|fixed"],
  float: ["none|left|right"],
  clear: ["none|left|right|both"],
  overflow: ["visible|hidden|scroll|auto"],
  direction: ["ltr", "rtl"],
  width: [`auto|${SIZE}`], height: [`auto|${SIZE}`],
  "min-width": [SIZE], "min-height": [SIZE], "max-width": [`none|${SIZE}`], "max-height": [`none|${SIZE}`],
  margin: [upTo4(`auto|${SHIFT}`)], padding: [upTo4(SIZE)],
  "border-width": [upTo4(WIDTHS)], "border-style": [upTo4(STYLES)], border: [BORDER],
  "font-size": [FONTSIZE], "font-family": [FAMILY], "line-height": [LINE],
  font: ["caption|icon|menu|message-box|small-caption|status-bar" +
    "|(?:(?:normal|italic|oblique|small-caps|bold|bolder|lighter|[1-9]00)\\s+){0,3}" +
    `(?:${FONTSIZE})(?:\\s*/\\s*(?:${LINE}))?\\s+${FAMILY}`],
  "vertical-align": [`baseline|sub|super|middle|${SHIFT}`, "top|bottom|text-top|text-bottom"],
  "text-align": ["left|right|center|justify"],
  "white-space": ["normal|nowrap", "pre|pre-wrap|pre-line"],
  "text-indent": [`${ZERO}(?:${UNITS}|%)?`, SHIFT],
  "letter-spacing": [`normal|${ZERO}${UNITS}?`, ANY],
  "word-spacing": [`normal|${ZERO}${UNITS}?`, ANY],
  "text-transform": ["none", "capitalize|uppercase|lowercase"],
  "list-style-position": ["outside", "inside"],
  content: [`normal|none|${STRING}(?:\\s*${STRING})*`, "[^]*(?:\\(|(?:^|\\s)(?:no-)?(?:open|close)-quote(?:\\s|$))[^]*"],
};
for (const side of SIDES) {
  TABLE[`margin-${side}`] = [`auto|${SHIFT}`];
  TABLE[`padding-${side}`] = [SIZE];
  TABLE[`border-${side}-width`] = [WIDTHS];
  TABLE[`border-${side}-style`] = [STYLES];
  TABLE[`border-${side}`] = [BORDER];
}
for (const [name, [taken, refused]] of Object.entries(TABLE)) {
  TABLE[name] = [new RegExp(`^(?:inherit|${taken})$`), refused && new RegExp(`^(?:${refused})$`)];
}
/** Properties beyond the profile that move boxes in browsers. */
const MOVERS = new RegExp("^(?:box-sizing|flex|flex-.*|grid|grid-.*|order|gap|row-gap|column-gap|align-.*|justify-.*|place-.*" +
  "|columns|column-.*" +
  "|transform|translate|scale|rotate|zoom|overflow-x|overflow-y|inset.*|(?:margin|padding|border)-(?:block|inline).*" +
  "|(?:min-|max-)?(?:inline|block)-size|aspect-ratio|contain|writing-mode" +
  "|word-break|overflow-wrap|word-wrap|hyphens|line-break|text-wrap.*" +
  "|content-visibility|text-orientation|float-.*|shape-.*|interpolate-size|field-sizing|initial-letter|text-spacing.*)$");

/** Sizes by words, for which browsers have a table of whole pixels at default sizes up to 16 px. */
const SIZE_WORDS = /(?:^|\s)(?:xx-small|x-small|small|large|x-large|xx-large)(?![-\w])/;

/** How a declaration is read: "taken", "refused", "dropped" or "unlisted". */
function declarationKind({name, value}) {
  if (name === "list-style") return /(?:^|\s)inside(?:\s|$)/.test(value) ? "refused" : "taken";
  if (!Object.hasOwn(TABLE, name)) return "unlisted";
  const [taken, refused] = TABLE[name];
  return taken.test(value) ? "taken" : refused && refused.test(value) ? "refused" : "dropped";
}

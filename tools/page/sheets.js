// ---- the texts of the sheets, and what of them is put otherwise so that the profile reads it

/** The text at an address, or null where the browser doesn't hand it out. */
function textAt(address) {
  return new Promise(done => {
    const request = new XMLHttpRequest();
    request.onload = () => done(request.status === 0 || request.status < 400 ? request.responseText : null);
    request.onerror = request.ontimeout = () => done(null);
    request.timeout = 15000;
    try { request.open("GET", address); request.send(); } catch { done(null); }
  });
}

function rulesOf(sheet) {
  try { return [...sheet.cssRules]; } catch { return null; }
}

/** The text under a list of media: null where the screen isn't meant, a block where the list asks for more than a medium. */
function underMedia(text, media) {
  if (forScreen(media)) return text;
  return media.includes("(") ? `@media ${media}{${text}}` : null;
}

/** The text of one sheet as it was written, or null where the browser shows the page without it. `known` has texts by address, null for
 * one that is missing. */
async function writtenText(sheet, rules, known, findings) {
  if (sheet.href && known[sheet.href] === null) {
    findings.add("warning", "a style sheet that isn't there, so that the browser shows the page without it", sheet.href);
    return null;
  }
  const text = sheet.href ? known[sheet.href] ?? await textAt(sheet.href) : sheet.ownerNode && sheet.ownerNode.textContent;
  if (text !== null && text !== undefined && (text.trim() || !rules || !rules.length)) return text;
  if (!rules) throw new Fault(`the style sheet ${sheet.href} can't be read: it is of another origin, so that the browser hides it`);
  if (!rules.length) {
    findings.add("warning", "a style sheet that isn't there, so that the browser shows the page without it", sheet.href);
    return null;
  }
  findings.add("told", "a sheet is taken as the browser understands it, not in its own text", sheet.href || "made by a script");
  return rules.map(it => it.cssText).join("\n");
}

/** The texts of one sheet and, before it, of those that it imports. */
async function textsOf(sheet, media, known, findings) {
  if (underMedia("", media) === null) return [];
  const rules = rulesOf(sheet);
  let text = await writtenText(sheet, rules, known, findings);
  if (text === null) return [];
  const texts = [];
  const imports = (rules || []).filter(it => it.styleSheet && it.constructor.name === "CSSImportRule");
  for (const statement of statements(text).filter(it => /^@import\b/i.test(it.head)).reverse()) {
    text = text.slice(0, statement.at) + text.slice(statement.end);
  }
  for (const it of imports) {
    findings.add("told", "an imported sheet stands before the one that imports it", it.href);
    texts.push(...await textsOf(it.styleSheet, it.media.mediaText, known, findings));
  }
  texts.push(text);
  return texts.map(it => underMedia(it, media)).filter(it => it !== null && it.trim());
}

async function sheetsOf(page, known, findings) {
  const texts = [];
  for (const sheet of page.styleSheets) {
    if (!sheet.disabled) texts.push(...await textsOf(sheet, sheet.media.mediaText, known, findings));
  }
  for (const link of page.querySelectorAll("link[rel~=stylesheet]")) {
    if (!link.sheet && !link.disabled) {
      findings.add("warning", "a style sheet that isn't there, so that the browser shows the page without it", link.getAttribute("href"));
    }
  }
  for (const sheet of page.adoptedStyleSheets || []) {
    texts.push(rulesOf(sheet).map(it => it.cssText).join("\n"));
    findings.add("told", "a sheet is taken as the browser understands it, not in its own text", "made by a script");
  }
  return texts;
}

// ---- sheets in the profile's words

const MADE = {before: "vizlog-before", after: "vizlog-after"};

/** A selector of generated content as one of the element that stands for it, any other as it is. */
function partOfMade(part) {
  const [, which] = PSEUDO.exec(part) || [];
  return which ? `${bearerOf(part)} > ${MADE[which.toLowerCase()]}` : part;
}

/** A group of selectors in the profile's words: those of generated content as they are ("kept"), or as selectors of elements ("elements");
 * parts that the profile can't read are left out, null where none is left. */
function groupSaid(group, generated) {
  const found = parts(group).filter(it => READ.test(bearerOf(it)));
  return found.length ? found.map(generated === "elements" ? partOfMade : it => it).join(", ") : null;
}

/** A group of selectors for a page in which elements stand for the generated content, that no other selector meets. */
const groupOfCopy = group => parts(group).map(it => PSEUDO.test(it) ? partOfMade(it)
  : `${it}:where(:not(${Object.values(MADE).join(",")}))`).join(", ");

/** Says a page's sheets: `media` answers their conditions, `generated` tells how generated content is said. */
class SheetWords {
  constructor(media, options, generated, findings) { Object.assign(this, {media, options, generated, findings}); }

  /** A sheet's text as the job has it. */
  sheet(text, where) {
    let made = "", at = 0;
    const put = (statement, by) => {
      made += text.slice(at, statement.at) + by;
      at = statement.end;
    };
    // what stays the same keeps its spaces too
    const same = ({head, block}, by) => by === `@media ${bare(head.slice(6))}{${block}}`;
    for (const statement of statements(text)) {
      const {head, block} = statement;
      if (/^@import\b/i.test(head)) put(statement, "");
      if (/^@media\b/i.test(head) && block !== null) {
        const by = this.under(this.list(head, where), block, where);
        if (!same(statement, by)) put(statement, by);
      }
      if (head[0] === "@" || block === null) continue;
      const kind = selectorKind(head);
      const stays = this.generated === "kept" || !parts(head).some(it => PSEUDO.test(it));
      if (kind === "read" && stays || !parts(head).every(it => BROWSER.reads(it))) continue;
      const group = groupSaid(head, this.generated);
      if (group === null && kind === "dropped") continue;
      put(statement, group === null ? "" : `${group}{${block}}`);
    }
    return made + text.slice(at);
  }

  /** The list of an @media in the profile's words. */
  list(head, where) {
    const list = bare(head.slice(6));
    const said = this.options.media ? this.media.said(list) : list;
    if (said === list) return list;
    const asked = (list.match(/\([^()]*\)/g) || []).some(it => !widthsSaid(it));
    const what = said.includes("(") ? "shorter" : `\`${said}\``;
    this.findings.add("said", asked ? `@media with a condition, as the browser answers it on this machine, is ${what}`
      : this.media.short ? "widths of @media at which nothing turns within the range are left out"
        : "the widths of @media in the profile's words", `${where}: ${short(head)}`);
    return said;
  }

  /** A block under a list; one in a block stands behind what is before it there, under both lists. */
  under(list, block, where) {
    let made = "", at = 0;
    const put = text => { if (text.trim()) made += `@media ${list}{${this.sheet(text, where)}}`; };
    for (const it of this.options.media ? statements(block) : []) {
      if (!/^@media\b/i.test(it.head) || it.block === null) continue;
      const both = bothMet(list, this.list(it.head, where));
      const what = both === null ? "an @media in an @media is dropped" : "an @media in an @media, as one under both conditions";
      this.findings.add(both === null ? "otherwise" : "said", what, `${where}: ${short(it.head)}`);
      if (both === null) continue;
      put(block.slice(at, it.at));
      made += this.under(both, it.block, where);
      at = it.end;
    }
    if (!at && list === "not all") return "@media not all{}";
    put(block.slice(at));
    return made || `@media ${list}{}`;
  }
}

/** What the browser says of a text of CSS and of the page. */
const BROWSER = {
  reads: (name, value) => value === undefined ? CSS.supports(`selector(${name})`) : CSS.supports(name, value),
  /** Whether some selector of a group meets an element, or has a pseudo-element at one. */
  meets: group => parts(group).some(it => {
    const bearer = it.replace(/::?(?:before|after|first-line|first-letter|[-\w]*marker|placeholder|selection)/gi, "") || "*";
    try { return document.querySelector(bearer) !== null; } catch { return false; }
  }),
};

/** What refuses the page whatever it holds, of the sheets as the job has them. */
function judgeSheet(text, number, findings) {
  let rules = 0;
  const where = head => `sheet ${number}: ${short(head)}`;
  const outside = media => listed(media).map(entryOf).flatMap(it => it && it.plain ? it.features : ["another form"]).find(it => !widthOf(it));
  const block = (list, inMedia, met = true) => {
    for (const {head, block: body} of list) {
      if (head[0] === "@") {
        const [word] = /^@[-\w]*/.exec(head);
        const media = bare(head.slice(word.length));
        if (/^@import$/i.test(word) && !rules) findings.add("refused", "@import", where(head));
        if (!/^@media$/i.test(word) || inMedia) continue;
        if (media.includes("(") && outside(media)) findings.add("refused", `@media with ${short(outside(media), 40)}`, where(head));
        else if (body !== null) block(statements(body), true, mayBeMet(media));
        continue;
      }
      if (body === null) continue;
      rules += 1;
      const kind = selectorKind(head);
      if (met && kind !== "read" && kind !== "dropped") findings.add("refused", `selector ${kind}`, where(head));
    }
  };
  block(statements(text), false);
  if (rules > 8192) findings.add("refused", "more than 8,192 rules in a sheet", `sheet ${number}`, {count: rules});
}

// ---- what the profile makes of a sheet, for a browser

const SIZES = {"xx-small": "3 / 5", "x-small": "3 / 4", small: "8 / 9", medium: "1", large: "6 / 5", "x-large": "3 / 2", "xx-large": "2"};
const sized = value => value === "larger" ? "1.2em" : value === "smaller" ? "calc(1em * 5 / 6)"
  : Object.hasOwn(SIZES, value) ? `calc(var(--vizlog-size) * ${SIZES[value]})` : value;
const FONT = new RegExp("^(?:(?:normal|italic|oblique|small-caps|bold|bolder|lighter|[1-9]00)\\s+){0,3}"
  + `(${FONTSIZE})(?:\\s*/\\s*(${LINE}))?\\s+(${FAMILY})$`);

/** The property that has the content of an element which stands for generated content. */
const CONTENT = "--vizlog-content";

/** Declarations as a browser has to read them to compute what the profile does. */
function declarationsRead(text) {
  const found = [];
  for (const {name, value, raw, important, ...rest} of declarations(text)) {
    const kind = declarationKind({name, value, ...rest});
    if (!/^(?:taken|refused)$/.test(kind)) continue;
    const end = important ? " !important" : "";
    if (name === "content") {
      found.push(`${CONTENT}:${kind === "taken" && value !== "inherit" ? raw : "none"}${end}`);
      continue;
    }
    const halved = value.replace(/(\d*\.?\d+)ex\b/g, (_, it) => `${it / 2}em`);
    const font = name === "font" && FONT.exec(halved);
    if (name === "font" && !font) continue;
    if (font) {
      found.push(`font-size:${sized(font[1])}${end}`, `line-height:${font[2] || "normal"}${end}`,
        `font-family:vizlog-none,${font[3]}${end}`);
    } else if (name === "font-family" && value !== "inherit") found.push(`font-family:vizlog-none,${halved}${end}`);
    else if (name === "font-size") found.push(`font-size:${sized(halved)}${end}`);
    else if (name !== "list-style" || kind === "refused") found.push(`${name}:${halved}${end}`);
  }
  return found.join(";");
}

/** A sheet as a browser has to read it; with `kept` elements stand for the generated content that the sheet has. */
function sheetRead(text, kept) {
  const made = [];
  for (const {head, block} of statements(text)) {
    if (block === null) continue;
    if (/^@media\b/i.test(head)) made.push(`${head}{${sheetRead(block, kept)}}`);
    else if (head[0] !== "@" && selectorKind(head) === "read") made.push(`${kept ? groupOfCopy(head) : head}{${declarationsRead(block)}}`);
  }
  return made.join("\n");
}

// ---- what stands in the way, at nodes and altogether

const LISTED = /^(?:none|block|inline|inline-block|list-item|ruby.*|-webkit-.*)$/;
/** What browsers lay out by and the profile has no word for: a property, and what it is where it does nothing. */
const BEYOND = {"column-count": /^auto$/, "column-width": /^auto$/, transform: /^none$/, translate: /^none$/, scale: /^none$/,
  rotate: /^none$/,
  zoom: /^1$/, "writing-mode": /^horizontal-tb$/, "text-wrap-style": /^auto$/, "font-variant-caps": /^normal$/, "shape-outside": /^none$/};

function judgeNodes(exporter) {
  const {tree, findings, options} = exporter;
  const visit = (node, above) => {
    if (node.chars !== undefined) {
      if (RIGHT_TO_LEFT.test(node.chars)) {
        findings.add("refused", "right-to-left characters", `node ${node.number} ${short(node.chars, 30)}`, {node});
      }
      return;
    }
    if (exporter.hidden(node) || node.made === "break" || node.made === "box") return;
    const name = called(node), known = new Set();
    // once a node, at whatever worlds
    const tell = (kind, what) => {
      if (!known.has(kind + what)) findings.add(kind, what, name, {node});
      known.add(kind + what);
    };
    const refuse = (property, value) => tell("refused", `${property}: ${value}`);
    const now = [];
    for (const at of exporter.shownAt(node)) {
      now[at] = exporter.wantedAt(node, at);
      const inherits = (property, value) => INHERITED.has(property) && above[at] && above[at][property] === value;
      for (const [property, refused] of Object.entries(REFUSED)) {
        const value = now[at][property];
        if (value !== undefined && refused.test(value) && !inherits(property, value)) refuse(property, value);
      }
      const indent = now[at]["text-indent"];
      if (indent !== undefined && !zero(indent) && !inherits("text-indent", indent)) refuse("text-indent", "not zero");
      if (node.of) judgeValues(node, node.samples[at], refuse, what => tell("otherwise", what));
    }
    if (node.of) judgeElement(node, name, exporter);
    for (const child of node.children || []) visit(child, now);
  };
  visit(tree.root, []);
}

function judgeValues(node, values, refuse, otherwise) {
  if (node.size && !node.boxed) {
    for (const property of ["min-width", "min-height"]) {
      if (!zero(values[property])) refuse(`${property} on a replaced element`, "not zero");
    }
    if (values["max-height"] !== "none") refuse("max-height on a replaced element", "not none");
  }
  if (!LISTED.test(values.display) && !/table/.test(values.display)) otherwise(`display: ${values.display}`);
  if (values.position === "sticky") otherwise("position: sticky");
}

function judgeElement(node, name, exporter) {
  const {findings} = exporter;
  const style = exporter.styleOf(node);
  const values = exporter.first(node);
  const otherwise = what => findings.add("otherwise", what, name, {node});
  if (style.hyphens === "auto" && node.of.parentElement && getComputedStyle(node.of.parentElement).hyphens !== "auto") {
    findings.add("told", "hyphens: auto, as this browser hyphenates here: another may elsewhere", name);
  }
  for (const [property, none] of Object.entries(BEYOND)) {
    const value = style.getPropertyValue(property);
    const parent = /^(?:writing|text|font)/.test(property) && node.of.parentElement;
    if (!value || none.test(value) || parent && getComputedStyle(parent).getPropertyValue(property) === value) continue;
    otherwise(`${property}: ${short(value, 20)}`);
  }
  if (node.tag === "fieldset" || node.tag === "legend") otherwise(`<${node.tag}>, which browsers lay out by rules of its own`);
  const text = (node.children || []).find(it => it.chars !== undefined && it.chars.trim());
  if (text && values["line-height"] === "normal" && exporter.normalOf(node) && node.off > 0.02) {
    const most = `${name}, up to ${node.off.toFixed(2)} px a line`;
    findings.add("otherwise", "line-height: normal is whole px in browsers, and a number here", most, {node});
  }
  if (text && values["text-align"] === "justify" && node.children.length > 1) otherwise("text-align: justify");
}

/** What the widths that the sheets ask for come to: parts of the range. */
function judgeWidths(widths, {widths: range, sizes}, findings) {
  const all = widths.map(it => it.text).join(" ");
  if (widths.length > MOST_WIDTHS) {
    findings.add("refused", `more than ${MOST_WIDTHS} widths that @media asks for`, short(all), {count: widths.length});
    return;
  }
  const count = partsOf(widths, range, sizes);
  if (count > MOST_PARTS) {
    findings.add("refused", `more than ${MOST_PARTS} parts of the range by what @media asks for`, short(all), {count});
    const found = rangesOf(widths, range, sizes);
    findings.add("told", `ranges of widths with at most ${MOST_PARTS} parts, for a job each`, found.join(" "), {count: found.length});
  } else if (count > 1) {
    findings.add("told", "parts of the range by what @media asks for, each proved by a certificate of its own", all, {count});
  }
}

function judgeLimits(exporter, fonts) {
  const {tree, css, findings, options} = exporter;
  const bytes = text => new TextEncoder().encode(text).length;
  const pins = node => important(single(node.pins));
  const styles = tree.written.filter(it => it.tag).map(it => (it.style || "") + pins(it));
  const total = css.concat(styles).reduce((sum, it) => sum + bytes(it), 0);
  const advances = fonts.reduce((sum, it) => sum + it.advances.length, 0);
  for (const [what, count, most] of [["elements", tree.elements, 4096], ["elements in one another", tree.depth, 60],
    ["characters of text", tree.characters, 262144], ["bytes of style sheets", total, 1048576], ["advances of fonts", advances, 65536],
    ["bytes of the assertion", bytes(options.assert), 16384]]) {
    if (count > most) findings.add("refused", `more than ${most} ${what}`, "the page", {count});
  }
}

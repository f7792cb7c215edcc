"""Draws a survey, at which widths each rule of a list holds, as a strip a rule, with a picture for each stretch that fails. Not proved."""
import json
import re
from dataclasses import dataclass, field

import answers
import drawing
import program
from drawing import told

LEFT, WIDE, HIGH, GAP, LEAST = 190, 900, 22, 16, 4
WORDS = {"holds": ("#8fce9b", "holds"), "fails": ("#e07a70", "fails"), "undecided": ("#d9d3c0", "not decided")}
KEY = (("holds", "holds at each width, size and height"), ("fails", "fails at each width, of one size and height at least"),
       ("undecided", "not decided with so many turns"))
LINE = re.compile(r"([a-z0-9-]{1,32}) (\d+) (\d+) (holds|fails|undecided)", re.A)
STYLE = (".shot{display:none;border:2px solid #b3261e;border-radius:6px;padding:0 14px 10px;margin:12px 0}.shot:target{display:block}"
         "svg.strips{background:#fff}svg.strips a:hover rect{stroke:#1c2430;stroke-width:2}")


@dataclass
class Stretch:
    """Widths, both ends in, at which a rule has one answer."""
    low: int
    high: int
    word: str

    def widths(self):
        return f"at {self.low} px" if self.low == self.high else f"from {self.low} to {self.high} px"

    def says(self):
        each = " at each width" if self.word == "fails" and self.low < self.high else ""
        return f"{WORDS[self.word][1]}{each} {self.widths()}"


@dataclass
class Rule:
    """A rule of the list by its name, its stretches in order, and the violations that were asked for by the first width of a stretch."""
    name: str
    formula: str
    stretches: list
    shots: dict = field(default_factory=dict)

    def anchor(self, stretch):
        return f"{self.name}-{stretch.low}"

    def says(self):
        """What is said of the rule, in words."""
        if [it.word for it in self.stretches] == ["holds"]:
            return "holds at every size"
        return "; ".join(it.says() for it in self.stretches)


def is_table(text):
    """Whether a text is a table of rules as `vizsurvey table` prints it."""
    lines = text.split("\n")
    return len(lines) > 1 and not lines[-1] and all(LINE.fullmatch(it) for it in lines[:-1])


def rules_of(table, listed):
    """The rules of a list with what a table says of each."""
    formulas = dict(line.partition(" ")[::2] for line in listed.split("\n") if line)
    rules = {}
    for name, low, high, word in (LINE.fullmatch(it).groups() for it in table.split("\n")[:-1]):
        if name not in formulas:
            raise answers.NoAnswer(f"the table has the rule {name}, and the list has none of that name")
        rules.setdefault(name, Rule(name, formulas[name], [])).stretches.append(Stretch(int(low), int(high), word))
    if set(formulas) != set(rules):
        raise answers.NoAnswer(f"the table has no line of the rule {sorted(set(formulas) - set(rules))[0]}")
    return list(rules.values())


def look(text, rules, folder, seconds, path):
    """Asks for a violation at the first width of each stretch that fails, within so many seconds: the job at that width and its answer."""
    asker = program.Asker(text, folder, seconds, path)
    sides = program.range_of(asker.told).sides
    for rule in rules:
        for stretch in rule.stretches:
            if stretch.word != "fails":
                continue
            part = program.Part(((stretch.low, stretch.low), *sides[1:]))
            reply = asker.ask(part, rule.formula)
            if reply and reply.status == program.VIOLATED:
                job = answers.job_of(asker.text_of(part, rule.formula))
                rule.shots[stretch.low] = (job, answers.answer_of(reply.text, job, None))


def place(job, width):
    """Where a width begins along a strip."""
    low, high = job.widths
    return LEFT + (width - low) * WIDE / (high - low + 1)


def drawn_stretch(job, rule, stretch, y):
    x, end = place(job, stretch.low), place(job, stretch.high + 1)
    # a stretch of one width of a wide range is still seen, and can be hit
    x, wide = (x, end - x) if end - x >= LEAST or stretch.word == "holds" else ((x + end - LEAST) / 2, LEAST)
    rect = (f'<rect x="{x:.2f}" y="{y}" width="{wide:.2f}" height="{HIGH}" fill="{WORDS[stretch.word][0]}">'
            f"<title>{told(f'{rule.name} {stretch.word} {stretch.widths()}')}</title></rect>")
    return f'<a href="#{rule.anchor(stretch)}">{rect}</a>' if stretch.low in rule.shots else rect


def ticks(job, rules):
    """The first widths of stretches, and the ends of the range, as far apart as their numbers have room."""
    ends = {job.widths[0], job.widths[1]}
    kept, last = [], None
    for width in sorted(ends | {it.low for rule in rules for it in rule.stretches}):
        near = last is not None and place(job, width) - place(job, last) < 34
        if near and width not in ends:
            continue
        if near and kept:
            kept.pop()
        kept.append(width)
        last = width
    return kept


def svg(job, rules):
    """All strips over one scale of widths."""
    rows, y = [], 24
    for rule in rules:
        rows.append(f'<text x="{LEFT - 10}" y="{y + 15}" text-anchor="end" font-size="13">{told(rule.name)}</text>')
        rows += [drawn_stretch(job, rule, it, y) for it in sorted(rule.stretches, key=lambda it: it.word != "holds")]
        y += HIGH + GAP
    for width in ticks(job, rules):
        x = place(job, width)
        rows.append(f'<path d="M{x:.2f} 18V{y - GAP}" stroke="#1c2430" stroke-opacity=".25"/>'
                    f'<text x="{x:.2f}" y="13" text-anchor="middle" font-size="11" fill="#5a6672">{width}</text>')
    return (f'<svg class="strips" xmlns="http://www.w3.org/2000/svg" width="{LEFT + WIDE + 30}" height="{y}" '
            f'font-family="system-ui,sans-serif">{"".join(rows)}</svg>')


def lines_of(job, rules, violation, range_words):
    """The page's body; `violation` draws a job with its violation."""
    key = "".join(f'<span><i style="background:{WORDS[word][0]}"></i>{words}</span>' for word, words in KEY)
    lines = [f"<h1>{sum(all(it.word == 'holds' for it in rule.stretches) for rule in rules)} of {len(rules)} rules hold at every size</h1>",
             f"<p class=small>{told(range_words)} Across: the viewport's width in px. A red stretch leads to a picture at its first width.</p>",
             f"<p class=key>{key}</p>", svg(job, rules), "<table><tr><th>rule</th><th>says</th><th>formula</th></tr>"]
    for rule in rules:
        links = ", ".join(f'<a href="#{rule.anchor(it)}">{it.low} px</a>' for it in rule.stretches if it.low in rule.shots)
        lines.append(f"<tr><td>{told(rule.name)}</td><td>{told(rule.says())}{f' (see {links})' if links else ''}</td>"
                     f"<td><code>{told(rule.formula)}</code></td></tr>")
    lines.append("</table>")
    for rule in rules:
        for low, (at, answer) in rule.shots.items():
            stretch = next(it for it in rule.stretches if it.low == low)
            lines += [f'<section class=shot id="{rule.anchor(stretch)}"><h2>{told(rule.name)}</h2>', *violation(at, answer), "</section>"]
    return lines


def range_of(text):
    """The job of a file, its assertion put aside: a survey asks the rules of a list in its place."""
    return answers.job_of(json.dumps({"assert": "true", **json.loads(text)}, ensure_ascii=False))

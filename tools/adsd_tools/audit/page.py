"""The page: the targets with how many come to each, then the findings by target, each with its entry, the line that
asks it again, and what takes it away."""

from typing import Iterator, Sequence

from adsd_tools.control import does
from adsd_tools.report.html import code, plural, tag, text
from adsd_tools.shown import shown

from .chains import Link, Reach
from .findings import Finding
from .style import STYLE
from .targets import AREAS
from .told import Names, Told, areas_of, chain_command, command

FEW, MOST_CHAINS = 8, 40
NO_CHAINS = ("Chains aren't told: each line is one step. Who comes to a right by rights in between stands here by his "
             "first step, if that is on an account or a group.")
WHAT_CHAINS = ("A chain is what <code>adsd control</code> tells: each step is of one of its kinds "
               "(docs/profile/control.md), and none is shorter. It doesn't know that a controller holds "
               "all passwords, nor certificates, files of policies, sessions, local groups and trusts.")
NOT_LOOKED_AT = ("Not looked at: sessions, local groups of servers, files of policies, trusts, what a certificate "
                 "authority is set to, and what was typed on a share. What gives a password to guess is told apart.")


class Page:
    """Makes the page of an audit."""

    def __init__(self, told: Told, names: Names) -> None:
        self.told, self.names, self.domain = told, names, names.domain

    def made(self) -> str:
        head = tag("meta", charset="utf-8")[: -len("</meta>")]
        head += '<meta name="viewport" content="width=device-width, initial-scale=1">'
        head += tag("title", "Audit of " + text(self.told.store)) + f"<style>{STYLE}</style>"
        parts = "".join(self.area(area) for area in AREAS)
        body = "".join(tag("p", text(line, 4000), of="banner", role="alert") for line in self.told.incomplete)
        body += tag("a", "To the findings", of="skip", href="#findings") + self.header()
        body += tag("main", self.summary() + tag("div", parts, id="findings") + self.delegated() + self.limits())
        body += tag("footer", "Each line is an answer of adsd; which rights are dangerous, and what is a target, says "
                              "docs/audit.md. This page is as secret as the directory.")
        return f'<!DOCTYPE html>\n<html lang="en"><head>{head}</head>\n<body>{body}</body></html>\n'

    # ---- the head

    def header(self) -> str:
        faults = sum(not one.look for one in self.told.findings)
        looks = len(self.told.findings) - faults
        lead = (tag("b", plural(faults, "finding"), of="bad" if faults else None)
                + " by which somebody who is no administrator comes to what rules the domain, or to others; and "
                + plural(looks, "thing") + " to look at.")
        soft = (f"{text(self.told.store)}: {plural(self.told.objects, 'object')}, "
                f"{plural(self.told.answers, 'question')} to the program.")
        return tag("header", tag("h1", "Who may take over this domain") + tag("p", lead, of="lead")
                   + tag("p", soft, of="soft"))

    def summary(self) -> str:
        """The targets that somebody outside opens, the worst first; and how many findings there are of each kind."""
        rows = []
        for area, (title, means) in AREAS.items():
            here = [one for one in self.told.findings if one.area == area]
            faults = sum(not one.look for one in here)
            accounts = {one for finding in here for one in self.whose(finding)}
            if not here and not self.told.reaches(area):
                continue
            link = tag("a", text(title), href=f"#{area}")
            cells = [tag("th", link + tag("div", text(means), of="soft"), scope="row"),
                     tag("td", tag("span", f"{faults:,}", of="bad" if faults else "soft"), of="n", data_of="findings"),
                     tag("td", f"{len(here) - faults:,}", of="n", data_of="to look at"),
                     tag("td", f"{len(accounts):,}", of="n", data_of="accounts")]
            if self.told.has_control:
                come = max((found.identities for found in self.told.reaches(area)), default=None)
                cells.append(tag("td", "" if come is None else f"{come:,}", of="n", data_of="come to control it"))
            rows.append(tag("tr", "".join(cells)))
        none = [title for area, (title, _) in AREAS.items()
                if area in areas_of(self.told) and not self.told.reaches(area)
                and not any(one.area == area for one in self.told.findings)]
        heads = "".join(tag("th", one, scope="col", of="n" if one != "target" else None)
                        for one in ("target", "findings", "to look at", "accounts",
                                    *(["come to control it"] if self.told.has_control else [])))
        made = tag("table", tag("caption", "What was found, the worst first") + tag("thead", tag("tr", heads))
                   + tag("tbody", "".join(rows)), of="wide")
        return made + (tag("p", "Nothing: " + text("; ".join(none)) + ".", of="soft") if none else "")

    def whose(self, finding: Finding) -> list[int]:
        """The accounts that a finding concerns."""
        own = self.domain.number(finding.who)
        return [*finding.members, *([own] if own is not None and self.domain.is_account(own) else [])]

    # ---- findings

    def area(self, area: str) -> str:
        here, reaches = [one for one in self.told.findings if one.area == area], self.told.reaches(area)
        if not here and not reaches:
            return ""
        title, means = AREAS[area]
        made = tag("h2", text(title), id=area) + tag("p", text(means[:1].upper() + means[1:] + "."), of="soft")
        made += "".join(map(self.control, reaches[:1]))
        if len(reaches) > 1:
            more = tag("summary", plural(len(reaches) - 1, "other object") + " of this target, and who controls it")
            made += tag("details", more + "".join(map(self.control, reaches[1:])))
        return made + self.targets(area) + "".join(self.finding(one) for one in here)

    def control(self, one: Reach) -> str:
        """Who comes to control a target: the shortest chain, and all of them where it is opened."""
        target, first = one.target, one.chains[0]
        head = (tag("b", f"{one.identities:,}", of="bad") + " that are no administrators come to control "
                + tag("b", text(self.domain.label(target.number))) + f" ({text(target.told)}), "
                + plural(one.accounts, "account") + " of them. The shortest chain:")
        rows = "".join(tag("li", self.chain(chain.links)) for chain in one.chains[:MOST_CHAINS])
        rest = len(one.chains) - MOST_CHAINS
        rows += tag("li", f"and {rest:,} more") if rest > 0 else ""
        ask = command(["control", self.domain.names[target.number]], self.told.store)
        more = tag("details", tag("summary", plural(len(one.chains), "chain") + ", the shortest first")
                   + tag("ul", rows) + tag("pre", text(ask, 4000), tabindex="0"))
        picture = self.drawn(first.links, self.domain.label(target.number))
        return tag("div", tag("p", head) + picture + more, of="control")

    def drawn(self, links: Sequence[Link], target: str) -> str:
        """The picture of a chain: a list of nodes with named edges, which the style draws."""
        items = [tag("li", tag("span", text(links[0].name), of="node"))] if links else []
        for one in links:
            words = does(one.kind, not one.to or self.domain.is_a(one.to, "group"))
            edge = tag("span", text(words), of="edge", title=one.kind)
            items.append(tag("li", edge + " " + tag("span", text(one.to_name), of="node", title=one.to_sid or None)))
        return tag("ol", "".join(items), of="drawn", role="list", aria_label=f"the shortest chain to {shown(target)}")

    def chain(self, links: Sequence[Link]) -> str:
        """A chain in a line: who, and of each step its kind and where it leads."""
        made = [tag("span", text(links[0].name), of="node")] if links else []
        for one in links:
            made.append(tag("span", "\u2192 " + text(one.kind), of="edge") + " "
                        + tag("span", text(one.to_name), of="node", title=one.to_sid or None))
        return tag("span", " ".join(made), of="chain")

    def targets(self, area: str) -> str:
        """The targets of an area that somebody opens, with how many accounts do."""
        found = [one for one in self.told.reach if one[0].area == area]
        if len(found) < 2:
            return ""
        come = {one.target.number: f"{one.identities:,}" for one in self.told.control}
        rows = "".join(tag("tr", tag("th", text(self.domain.label(target.number)), scope="row")
                           + tag("td", text(target.told)) + tag("td", f"{accounts:,}", of="n", data_of="accounts")
                           + tag("td", come.get(target.number, ""), of="n", data_of="come to control it"))
                       for target, accounts, _ in found)
        return tag("details", tag("summary", plural(len(found), "target") + " that somebody else opens")
                   + tag("table", tag("tbody", rows), of="wide"))

    def finding(self, one: Finding) -> str:
        word = tag("span", "look", of="look") if one.look else ""
        title = f"{tag('b', text(self.names.who(one) or 'nobody'))}{self.beside(one)} {text(one.what[0])} {word}"
        pairs = [("on", self.objects(one))]
        if len(one.what) > 1:
            pairs.append(("and", text("; ".join(one.what[1:]))))
        if len(one.members) > FEW:
            pairs.append(("accounts", self.folded([self.domain.label(number) for number in one.members])))
        if one.entry:
            at = self.names.at(one)
            where = f" at {code(at)}" if at is not None and [one.at] != one.objects else ""
            pairs.append(("by", code(one.entry) + where))
        if one.notes:
            pairs.append(("but" if one.look else "note", text("; ".join(one.notes))))
        ask = [command(one.ask, self.told.store)]
        if one.chain or one.onward:
            pairs.append(("chain" if one.chain else "from there", self.chain(one.chain or one.onward)))
            ask.append(chain_command(self.domain, self.told.store))
        pairs += [("ask again", "".join(tag("pre", text(line, 4000), tabindex="0") for line in ask)),
                  ("mend", self.fix(one))]
        body = "".join(tag("dt", name) + tag("dd", value) for name, value in pairs)
        return tag("article", tag("h3", title) + tag("dl", body), of="finding l" if one.look else "finding")

    def beside(self, one: Finding) -> str:
        """The accounts that have it through the one that is named."""
        names = self.names.members(one, FEW)
        if not names:
            return ""
        told = ", ".join(names) if len(one.members) <= FEW else plural(len(one.members), "account")
        return " " + tag("span", f"({text(told, 600)})", of="soft")

    def objects(self, one: Finding) -> str:
        names = [self.domain.names[number] for number in one.objects]
        if len(names) <= 3:
            return "<br>".join(map(code, names))
        return self.folded(names, self.domain.label(one.objects[0]))

    def folded(self, names: list[str], first: str = "") -> str:
        """Names of which there are many: how many, and all of them where it is opened."""
        more = f"{text(first)} and {len(names) - 1:,} more" if first else plural(len(names), "account")
        shown = "".join(tag("li", code(name)) for name in names[:500])
        rest = tag("li", f"and {len(names) - 500:,} more") if len(names) > 500 else ""
        return tag("details", tag("summary", more) + tag("ul", shown + rest))

    def fix(self, one: Finding) -> str:
        words = text(one.fix.words[:1].upper() + one.fix.words[1:]) if one.fix.words else ""
        if not one.fix.lines:
            return words
        way = "adsd grants" if one.fix.command == "grants" else "adsd change"
        lines = tag("pre", text("\n".join(one.fix.lines), 20000).replace("\\0A", "\n"), tabindex="0")
        return words + lines + tag("div", f"for {code(way)}", of="soft")

    # ---- what is told and not judged

    def delegated(self) -> str:
        rows = "".join(tag("tr", tag("th", text(str(one["unit"])), scope="row") + tag("td", text(str(one["who"])))
                           + tag("td", code(str(one["entry"])))) for one in self.told.delegated)
        if not rows:
            return ""
        heads = "".join(tag("th", name, scope="col") for name in ("unit", "to whom", "entry"))
        made = tag("table", tag("thead", tag("tr", heads)) + tag("tbody", rows), of="wide")
        means = ("All entries of units' own lists that their class doesn't give, and that aren't for administrators: "
                 "told, and not judged.")
        count = tag("summary", plural(len(self.told.delegated), "entry", "entries"))
        head = tag("h2", "What was delegated on units", id="delegated") + tag("p", means, of="soft")
        return head + tag("details", count + made)

    def limits(self) -> str:
        return tag("h2", "What this page doesn't say") + "".join(self.said())

    def said(self) -> Iterator[str]:
        yield tag("p", WHAT_CHAINS if self.told.has_control else NO_CHAINS)
        yield tag("p", NOT_LOOKED_AT)
        yield from (tag("p", text(note)) for note in self.told.notes)
        if self.told.without:
            yield tag("p", "These have more groups than a token may, so it isn't known what they may: "
                      + ", ".join(map(code, self.told.without[:20])))

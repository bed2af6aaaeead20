"""All pages, run by the tables in several processes: what differs, and which arms no page has met."""
import array
import collections
import multiprocessing
import re
from pathlib import Path

from pages import model_of

from rules.arms import Arms
from rules.cases import OWN, cases, random_pages
from rules.checking import checked, expected
from rules.defined import STATED, WORDS, Defined
from rules.probes import probes, singles
from rules.reading import Specs
from rules.running import prepared
from rules.wrong import Faults

HERE = Path(__file__).resolve().parent
# how many pages a process takes at a time
SHARE = 50
PROBES, SINGLES = "tokens after fronts", "pages for arms"
# one in so many cases is run with its words as they are defined, if it has fewer bytes than that
DEFINED, SHORT = 4, 150
# so many pages that differ are shown
SHOWN = 40
# so many of the pages of tokens after fronts are run to see a fault
MOST_PAGES = 800


def listed(name):
    """Returns the lines of a file beside these modules, but for its comments."""
    return [it for it in (HERE / name).read_text().splitlines() if it and not it.startswith("#")]


class Campaign:
    """The pages of some options, and what was found of them: how many passed and failed."""

    def __init__(self, options):
        self.options, self.passed, self.failed = options, 0, 0
        self.specs = Specs(options.crates)
        self.rules, self.defined = prepared(self.specs), Defined(self.specs)
        self.model = model_of(options.suites)
        self.table = self.model.Table.read(str(options.suites / "entities.json"))
        parts = {"cases": cases(options.suites), "random pages": random_pages(options.suites, options.count, options.seed)}
        parts |= {PROBES: [*probes(self.rules)], SINGLES: [*singles()]}
        self.pages = [it for part in parts.values() for it in part]
        self.kinds = [kind for kind, part in parts.items() for _ in part]
        self.arms = Arms(self.rules)
        # each place at which an arm is noted, by a number
        self.numbers = {it: at for at, it in enumerate(dict.fromkeys(it for places in self.arms.labels.values() for it in places))}
        self.wanted, self.met = {}, {}
        # the arms that a process has told, and the answers whose arms are among them
        self.told, self.known = set(), set()

    def check(self, at):
        """Returns the number of a page, what is expected of it, what was found, the numbers of the arms that it met, and the words that were compared with
        their definitions."""
        page = self.pages[at]
        wanted = expected(self.model, self.table, page)
        if wanted is None:
            return at, None, "no context", (), ()
        self.defined.words.clear()
        it = checked(self.rules, self.model, self.table, page, wanted, self.defined if self.is_defined(at) else None, None if self.options.mutate else self.known)
        arms = {self.numbers[one] for one in it.arms if one in self.numbers}
        if not self.options.mutate:
            # (for faults each page's are needed; else those that are new to this process)
            arms, self.told = arms - self.told, self.told | arms
        return at, wanted, it.found, tuple(arms), {*self.defined.words}

    def is_defined(self, at):
        """Returns whether a page is run with its words as they are defined, too: so many of the short cases are, and the pages that were made for arms."""
        page = self.pages[at]
        if page.tree is None:
            return self.kinds[at] == SINGLES
        return len(page.text) < SHORT and (at % DEFINED == 0 or page.name.startswith(OWN.name))

    def run(self):
        """Runs all pages, and says what was found."""
        self.found, self.words = collections.Counter(), set()
        with multiprocessing.get_context("fork").Pool(self.options.jobs, initializer=remember, initargs=(self,)) as pool:
            for at, wanted, found, arms, words in pool.imap_unordered(check, range(len(self.pages)), SHARE):
                self.wanted[at], self.met[at] = wanted, arms
                self.words.update(words)
                self.add(at, found)
        self.tell_pages()
        self.compare_arms()
        self.compare_words()

    def add(self, at, found):
        page = self.pages[at]
        kind = self.kinds[at]
        if found in ("same", "no context"):
            self.found[kind, found] += 1
            self.passed += found == "same"
            return
        self.found[kind, "differ"] += 1
        self.failed += 1
        if self.failed <= SHOWN:
            print(f"{page.name}: {page.text!r}" + ("" if page.context is None else f" in {page.context!r}") + f": {found}", flush=True)

    def tell_pages(self):
        for kind in dict.fromkeys(kind for kind, _ in sorted(self.found)):
            print(f"{kind}: {self.found[kind, 'same']} the same, {self.found[kind, 'differ']} differ")

    # ARMS AND WORDS

    def compare_words(self):
        """Says which words and questions no page has compared with their definitions."""
        every = {name for name, kind in self.specs.module(WORDS).makers.items() if kind in ("Word", "Query") and name != kind}
        every |= {"OtherEndTag", *(record for _, record in STATED)}
        missed = sorted(every - self.words)
        for it in missed:
            print(f"no page has compared with its definition: {it}")
        pages = sum(map(self.is_defined, self.wanted))
        print(f"words and questions: {len(every)}, of which {len(every) - len(missed)} did what they are defined to do, on {pages} pages")
        self.failed += len(missed)

    def compare_arms(self):
        """Says which arms no page has met, but for those that none may meet."""
        met = set().union(*self.met.values())
        self.missed = [label for label, places in self.arms.labels.items() if any(self.numbers[it] not in met for it in places)]
        never = patterns("never.txt")
        missed = [it for it in self.missed if not any(one.fullmatch(it) for one in never)]
        stale = [it for it in self.arms.labels if it not in self.missed and any(one.fullmatch(it) for one in never)]
        stale += [one.pattern for one in never if not any(one.fullmatch(it) for it in self.arms.labels)]
        for it in sorted(missed):
            print(f"no page has met: {it}")
        for it in sorted(stale):
            print(f"met, or no arm any more, though tools/rules/never.txt has it: {it}")
        print(f"arms: {len(self.arms.labels)}, of which {len(self.arms.labels) - len(self.missed)} were met and {len(self.missed) - len(missed)} are never met")
        self.failed += len(missed) + len(stale)

    def tell_arms(self):
        for it in self.missed:
            print(it)

    # FAULTS

    def plant(self, count, seed):
        """Plants faults in the tables, and says which of them no page sees."""
        self.seers = {}
        for at, arms in self.met.items():
            for it in arms:
                self.seers.setdefault(it, array.array("I")).append(at)
        every = Faults(self.rules, self.defined, self.arms, seed)
        every.found = [it for it in every.found if it.arms is None or any(self.numbers.get(one) in self.seers for one in it.arms)]
        print(f"{len(every.found)} faults are known of arms that pages meet", flush=True)
        self.faults = every.chosen(count)
        unseen, known, kinds = [], patterns("unseen.txt"), collections.Counter()
        with multiprocessing.get_context("fork").Pool(self.options.jobs, initializer=remember, initargs=(self,)) as pool:
            for at, seen in pool.imap_unordered(plant, range(len(self.faults)), 1):
                kinds[self.faults[at].kind, bool(seen)] += 1
                if not seen:
                    unseen.append(self.faults[at].label)
                    print(f"not seen: {self.faults[at].label}", flush=True)
        for kind in sorted({kind for kind, _ in kinds}):
            print(f"{kind}: {kinds[kind, True]} seen, {kinds[kind, False]} not")
        expected = [it for it in unseen if any(one.fullmatch(it) for one in known)]
        for it in sorted({*unseen} - {*expected}):
            print(f"no page sees: {it}")
        print(f"faults: {len(self.faults)} planted, {len(self.faults) - len(unseen)} seen, {len(expected)} that none can see")
        self.passed += len(self.faults) - len(unseen)
        self.failed += len(unseen) - len(expected)

    def see(self, at):
        """Returns the number of a fault, and the name of a page that sees it, or None."""
        fault = self.faults[at]
        rules, defined = self.rules, Defined(self.specs, {fault.key: fault.equations})
        if fault.arms is not None:
            rules = prepared(self.specs, {fault.key: fault.equations})
            for it in self.pages_that_may_see(fault):
                if self.differs(rules, it):
                    return at, self.pages[it].name
        seers = (it for it in self.wanted if self.is_defined(it) and self.wanted[it] and self.differs(rules, it, defined))
        return at, next((self.pages[it].name for it in seers), None)

    def differs(self, rules, at, defined=None):
        """Returns whether a page differs by these rules, or a word there from these definitions."""
        return checked(rules, self.model, self.table, self.pages[at], self.wanted[at], defined).found != "same"

    def pages_that_may_see(self, fault):
        """Returns the numbers of pages that met the arms of a fault: the cases and the random pages, and so many others, in an order in which not all that
        begin alike stand together."""
        found = {}
        for arm in fault.arms:
            pages = [it for it in self.seers.get(self.numbers.get(arm), ()) if self.wanted[it]]
            found.update(dict.fromkeys(it for it in pages if self.kinds[it] != PROBES))
            found.update(dict.fromkeys(sorted((it for it in pages if self.kinds[it] == PROBES), key=lambda it: it * 7919 % 10007)[:MOST_PAGES]))
        return [*found]


def patterns(name):
    """Returns the lines of a file beside these modules as patterns, in which * stands for anything."""
    return [re.compile(".*".join(map(re.escape, it.split("*")))) for it in listed(name)]


def remember(campaign):
    global CAMPAIGN
    CAMPAIGN = campaign


def check(at):
    return CAMPAIGN.check(at)


def plant(at):
    return CAMPAIGN.see(at)

"""Which crates a run proves: what has no line of the ledger, as far as the host can, and of the rest as much as the bound lets it, the longest unproved
first."""
import reckoning
import tree


class Plan:
    """What a run does with each library and program: proves it, takes it from what the kit keeps, states it for those above, or leaves it to the ledger."""

    def __init__(self, uses, minutes, dates, kept):
        """dates: the moments of the ledger's lines that fit, by name; kept: the crates of which the kit keeps a proof of the present text."""
        self.uses, self.minutes, self.kept = uses, minutes, set(kept)
        self.names = [it for it in uses if not tree.is_of_tests(it)]
        self.dates = dates
        # what must be proved: recursive digests have what stands on it among it
        self.due = {it for it in self.names if it not in dates} - self.kept
        self.proved = set(self.due)

    def stated(self, proved):
        """The crates below these that are neither proved nor kept."""
        below = set().union(*(tree.below(self.uses, it) for it in proved))
        return below - proved - self.kept

    def work(self, proved):
        """The minutes that these proofs take, by crate and kind, with the statements below them, and the programs that no proof of this run builds."""
        found = {it: {**self.minutes[it], "tests": 0.0} for it in proved}
        for it in self.stated(proved):
            found[it] = reckoning.stated(self.minutes[it])
        return found

    def unbuilt(self, proved):
        """The programs that what comes after needs, and that are built without a proof: over the true sources, where what lies below was only stated."""
        stated = self.stated(proved)
        return [it for it in reckoning.NEEDED if it in self.names and (it not in proved | self.kept or stated & tree.below(self.uses, it))]

    def clock(self, host, proved):
        return host.clock(self.work(proved), len(self.unbuilt(proved)))

    def lowest_first(self, name):
        return len(tree.below(self.uses, name)), name

    def cut(self, host):
        """Takes of what is due, the lowest first, what goes into the minutes that the host has for it: one at least, and none over one that is left out."""
        if self.clock(host, self.due) <= host.most:
            return
        self.proved = set()
        for it in sorted(self.due, key=self.lowest_first):
            fits = not self.proved or self.clock(host, self.proved | {it}) <= host.most
            if fits and tree.below(self.uses, it) & self.due <= self.proved:
                self.proved.add(it)

    def left_out(self):
        """The crates of whose present text no run has a proof, and this one makes none."""
        return [it for it in self.names if it in self.due and it not in self.proved]

    def fill(self, host, is_whole):
        """Takes of the rest as much as the bound lets it, the longest unproved first, of those the lowest."""
        rest = [it for it in self.names if it not in self.due | self.kept]
        if is_whole:
            self.proved = self.due | set(rest)
            return
        self.cut(host)
        for it in sorted(rest, key=lambda name: (self.dates[name], *self.lowest_first(name))):
            if not self.left_out() and self.clock(host, self.proved | {it}) <= host.bound:
                self.proved.add(it)

    def by_ledger(self):
        """The crates that stand by the ledger alone."""
        return [it for it in self.names if it not in self.proved | self.due | self.kept]

"""The download program: three plans, their callouts and the cap."""
import subprocess

from cases import rota
from program import Program, root
from samples import ROTAS, callouts_of, first, first_with_fewest, following

ONLY = "next plan: none, the first plan is the only one\n"


def line(title, plan, callouts):
    return f"{title}: {' '.join(map(str, plan))} / {callouts_of(plan, callouts)}\n"


def given_before(opens, callouts):
    """The lines of the first plan and the next."""
    plan = first(opens)
    after = following(opens, plan)
    return line("first plan", plan, callouts) + (line("next plan", after, callouts) if after else ONLY)


def over(name, fewest, cap):
    return f"download: {name}: fewest callouts refused 11: even the fewest callouts are more than the cap; the fewest are {fewest}, the cap is {cap}\n"


class Download(Program):
    name, call, short_of = "download", "usage: download FILE [CAP]\n", "first plan "

    def on_samples(self):
        for name in "three-items", "twenty-items", "sixty-four-items":
            opens, callouts = ROTAS[name]
            file, two = f"examples/{name}.rota", given_before(opens, callouts)
            best = first_with_fewest(opens, callouts)
            fewest, third = callouts_of(best, callouts), line("fewest callouts", best, callouts)
            self.expect([file], two + third, "", 0)
            for cap in str(fewest), f"00{fewest}", "4294967295":
                self.expect([file, cap], two + third, "", 0)
            for cap in {0, fewest - 1}:
                self.expect([file, str(cap)], two, over(file, fewest, cap), 1)
        self.expect(["examples/three-items.rota"], (root / "examples/download.expected").read_text(), "", 0)

    def on_made_files(self):
        one = self.write("one", rota([1]))
        self.expect([one], "first plan: 0 / 0\n" + ONLY + "fewest callouts: 0 / 0\n", "", 0)
        called = self.write("called", rota([1], [1]))
        self.expect([called], "first plan: 0 / 1\n" + ONLY + "fewest callouts: 0 / 1\n", "", 0)
        self.expect([called, "0"], "first plan: 0 / 1\n" + ONLY, over(called, 1, 0), 1)
        three = self.write("three", rota([1, 1, 1]))
        self.expect([three, "0"], "", self.short(three, "items 0, 1 and 2 are short by 2 slots"), 1)

    def called_wrongly(self):
        file = "examples/three-items.rota"
        self.expect([], "", self.call, 2)
        self.expect([file, "1", "1"], "", self.call, 2)
        for cap in "", "x", "-1", "+1", " 1", "1 ", "1x", "0x1", "1.5", "4294967296", "9" * 40:
            self.expect([file, cap], "", f"download: the cap is no number from 0 to 4294967295: {cap}\n" + self.call, 2)
        self.expect(["examples", "x"], "", "download: the cap is no number from 0 to 4294967295: x\n" + self.call, 2)

    def capped(self):
        """A refused cap where nothing can be written, and on one stream, where the plans stand before the refusal."""
        file = "examples/three-items.rota"
        with open("/dev/full", "w") as full:
            self.same([file, "0"], self.run([file, "0"], full), (None, over(file, 1, 0) + self.unwritten, 2))
        both = given_before(*ROTAS["three-items"]) + over(file, 1, 0)
        self.same([file, "0"], self.run([file, "0"], err=subprocess.STDOUT), (both, None, 1))

    def try_all(self):
        self.on_samples()
        self.on_made_files()
        self.on_short()
        self.on_damaged()
        self.called_wrongly()
        self.not_read()
        self.helped("FILE", "CAP", "no complete plan follows", "no failure")
        self.not_written()
        self.capped()

"""The sheet program: the sheet of the first plan with the fewest callouts, byte for byte."""
from cases import rota
from program import Program, root, text
from samples import ROTAS, first_with_fewest


def sheet(plan, callouts):
    lines = ["IT    SL    C"]
    for i, j in enumerate(plan):
        lines.append(f"{i:>2}    {j:>2}    {'C' if callouts[i] >> j & 1 else ''}")
    return "".join(f"{line:<31}\n" for line in lines)


class Sheet(Program):
    name, call = "sheet", "usage: sheet FILE\n"

    def on_samples(self):
        for name in "three-items", "twenty-items", "sixty-four-items":
            opens, callouts = ROTAS[name]
            self.expect([f"examples/{name}.rota"], sheet(first_with_fewest(opens, callouts), callouts), "", 0)
        self.expect(["examples/three-items.rota"], text((root / "examples/sheet.expected").read_bytes()), "", 0)

    def on_made_files(self):
        self.expect([self.write("one", rota([1]))], sheet([0], [0]), "", 0)
        self.expect([self.write("called", rota([1], [1]))], sheet([0], [1]), "", 0)
        # As many callouts as there can be: item i has slot 63 - i.
        backwards = [1 << (63 - i) for i in range(64)]
        self.expect([self.write("backwards", rota(backwards, backwards))], sheet(reversed(range(64)), backwards), "", 0)

    def called_wrongly(self):
        file = "examples/three-items.rota"
        for arguments in [], [file, file], [file, "1"], ["--help", file], [file, "--help"]:
            self.expect(arguments, "", self.call, 2)

    def try_all(self):
        self.on_samples()
        self.on_made_files()
        self.on_short()
        self.on_damaged()
        self.called_wrongly()
        self.not_read()
        self.helped("FILE", "fewest callouts", "IT", "SL", "a C if")
        self.not_written()

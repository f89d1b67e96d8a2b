"""Names that the subset of Verilog accepts, made from names that Yosys has.

Nothing here is trusted by a verdict.
"""
from __future__ import annotations

import re

# Words of Verilog (IEEE 1364-2005, annex B), and those that rvf keeps for itself beside them.
KEPT = frozenset("""
always and assign automatic begin buf bufif0 bufif1 case casex casez cell cmos config deassign default defparam design
disable edge else end endcase endconfig endfunction endgenerate endmodule endprimitive endspecify endtable endtask
event for force forever fork function generate genvar highz0 highz1 if ifnone incdir include initial inout input
instance integer join large liblist library localparam macromodule medium module nand negedge nmos nor noshowcancelled
not notif0 notif1 or output parameter pmos posedge primitive pull0 pull1 pulldown pullup pulsestyle_ondetect
pulsestyle_onevent rcmos real realtime reg release repeat rnmos rpmos rtran rtranif0 rtranif1 scalared showcancelled
signed small specify specparam strong0 strong1 supply0 supply1 table task time tran tranif0 tranif1 tri tri0 tri1
triand trior trireg unsigned use uwire vectored wait wand weak0 weak1 while wire wor xnor xor
always_comb always_ff always_latch assert assume cover interface logic property struct typedef
""".split())

# Other words of SystemVerilog, which the converter gives to no name either, so that other tools read the text too.
RESERVED = KEPT | frozenset("""
bind bit break byte checker clocking const constraint context continue cross do endchecker endclocking endinterface
endpackage endprogram endproperty endsequence enum expect export extends extern final first_match foreach global iff
illegal_bins implies import inside int intersect let local longint matches modport new nexttime null package packed
priority program protected pure rand randc randcase randsequence ref reject_on restrict return sequence shortint
shortreal solve static string strong super tagged this throughout timeprecision timeunit type union unique unique0
until var virtual void weak wildcard with within
""".split())


def legal(old: str) -> str:
    """A legal name that still tells what the old one was: a dot becomes two underscores, all else that may not stand
    in a name becomes one."""
    text = re.sub(r"[^$:\\]*/", "", old.replace("$flatten", ""))
    text = re.sub(r"\$\d+\\(.*)\[\d+:\d+\](\$\d+)?$", r"\1_next", text)
    text = text.replace("\\", "").replace(".", "__")
    text = re.sub(r"[^A-Za-z0-9_]+", "_", text)
    text = re.sub(r"_{3,}", "__", text).strip("_") or "unnamed"
    if text[0].isdigit():
        text = "n_" + text
    return text + "_" if text in RESERVED else text


class Names:
    """The names that are taken, each once, with what each was."""

    def __init__(self) -> None:
        self.table: dict[str, str] = {}
        self._next: dict[str, int] = {}

    def keep(self, name: str) -> bool:
        """Takes a name as it stands, and says whether it is legal and was free: the names of ports may not change."""
        if name in self.table or legal(name) != name and not re.fullmatch(r"[A-Za-z_][A-Za-z0-9_$]*", name):
            return False
        if name in KEPT:
            return False
        self.table[name] = name
        return True

    def take(self, old: str, ending: str = "") -> str:
        """Takes a legal name for an old one, with a number behind it where another has it already."""
        base = legal(old) + ending
        name, number = base, self._next.get(base, 2)
        while name in self.table:
            name, number = f"{base}_{number}", number + 1
        self._next[base] = number
        self.table[name] = old + ending
        return name

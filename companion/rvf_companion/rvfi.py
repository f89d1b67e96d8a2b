"""The fields of the RISC-V Formal Interface. Nothing here is trusted by a verdict."""
from __future__ import annotations

# Each with its width in bits, in the order of the macros of docs/USER.md.
FIELDS = {"valid": 1, "order": 64, "insn": 32, "trap": 1, "halt": 1, "intr": 1, "mode": 2, "ixl": 2, "rs1_addr": 5,
          "rs2_addr": 5, "rs1_rdata": 32, "rs2_rdata": 32, "rd_addr": 5, "rd_wdata": 32, "pc_rdata": 32, "pc_wdata": 32,
          "mem_addr": 32, "mem_rmask": 4, "mem_wmask": 4, "mem_rdata": 32, "mem_wdata": 32}

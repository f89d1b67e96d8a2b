# One target for each kind of a configuration, so that `make -j`, or a job scheduler that runs make's targets, shares it
# out. Nothing of it is trusted by a verdict. It is included, or used alone:
#
#   make -k -j 4 -f companion/rvf.mk CFG=checks.cfg OUTDIR=out RVF_OPTIONS="--core mini --basedir examples/mini"
#
# Each kind has its files in a folder of its own, OUTDIR/KIND, and isn't run again where it stands. A kind with a check
# that fails or is spent fails as a target; `-k` goes on with the others. Where CFG or OUTDIR isn't given, or CFG can't
# be read, the target fails too.
RVF_COMPANION := $(dir $(lastword $(MAKEFILE_LIST)))
RVF_RUN ?= python3 $(RVF_COMPANION)run.py
RVF_KINDS := $(addprefix rvf-,$(if $(CFG),$(shell $(RVF_RUN) $(CFG) --list-kinds)))

.PHONY: rvf $(RVF_KINDS)
rvf: $(RVF_KINDS)
	@$(if $(CFG),,$(error give the configuration by CFG=))$(if $(RVF_KINDS),:,$(error no kind of checks in $(CFG)))

$(RVF_KINDS): rvf-%:
	@$(if $(OUTDIR),mkdir -p $(OUTDIR)/$*,$(error give a folder by OUTDIR=))
	$(RVF_RUN) $(CFG) $(OUTDIR)/$* --kinds $* --again $(RVF_OPTIONS)

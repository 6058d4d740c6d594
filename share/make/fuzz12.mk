# Rules for make: from a block's text NAME.fcl to its images, its certificates and its runs. In a Makefile:
#
#     all: heater.tight.check heater.html heater.mailbox.out
#     include /path/to/share/make/fuzz12.mk
#
# A certificate is the least that tools/least finds, or has the error that is asked for:
#
#     heater.tight.cert: TARGET = 80000,0
#
# What a rule makes is made again only where what it is made from is newer; nothing that was made is deleted.

FUZZ12 ?= fuzz12
PYTHON ?= python3
HERE := $(dir $(lastword $(MAKEFILE_LIST)))
TOOLS ?= $(HERE)../../tools
LEAST = $(PYTHON) $(TOOLS)/least --program $$(command -v $(FUZZ12))
FLAGS ?= 00

.DELETE_ON_ERROR:
.SECONDARY:

# The command behind the first word, or least with the second.
certificate = $(if $(TARGET),$(FUZZ12) $(1) $< $(TARGET) $@,$(LEAST) $(2) $< $@)

%.s19: %.fcl
	$(FUZZ12) compile $< $@

%.wide.s19: %.fcl
	$(FUZZ12) compile16 $< $@

%.mailbox.s19: %.fcl
	$(FUZZ12) mcompile $< $@

%.watched.s19: %.fcl
	$(FUZZ12) scompile $< $@

%.cert: %.fcl
	$(call certificate,certify)

%.wide.cert: %.fcl
	$(call certificate,certify16,--wide)

%.tight.cert: %.fcl
	$(call certificate,tcertify,--tight)

%.wide.tight.cert: %.fcl
	$(call certificate,tcertify16,--wide --tight)

%.check: %.fcl %.cert
	$(FUZZ12) check $^ > $@

%.wide.check: %.fcl %.wide.cert
	$(FUZZ12) check16 $^ > $@

%.tight.check: %.fcl %.tight.cert
	$(FUZZ12) tcheck $^ > $@

%.wide.tight.check: %.fcl %.wide.tight.cert
	$(FUZZ12) tcheck16 $^ > $@

# The samples are NAME.csv, the interrupts NAME.plan, and for the mailbox form the posts NAME.posts, as tools/posts
# writes them.
%.out: %.fcl %.s19 %.cert %.csv %.plan
	$(FUZZ12) run $^ $(FLAGS) > $@

%.wide.out: %.fcl %.wide.s19 %.wide.cert %.csv %.plan
	$(FUZZ12) run16 $^ $(FLAGS) > $@

%.tight.out: %.fcl %.s19 %.tight.cert %.csv %.plan
	$(FUZZ12) trun $^ $(FLAGS) > $@

%.wide.tight.out: %.fcl %.wide.s19 %.wide.tight.cert %.csv %.plan
	$(FUZZ12) trun16 $^ $(FLAGS) > $@

%.mailbox.out: %.fcl %.mailbox.s19 %.tight.cert %.csv %.posts
	$(FUZZ12) tmrun $^ $(FLAGS) > $@

# Each of these runs on one page, to hand over.
report = $(PYTHON) $(TOOLS)/report --program $$(command -v $(FUZZ12)) --flags $(FLAGS) --trace $*.csv

%.html: %.fcl %.tight.cert %.csv %.plan %.tight.out
	$(report) --form run --cert $*.tight.cert --plan $*.plan --run $*.tight.out $< $@

%.mailbox.html: %.fcl %.tight.cert %.csv %.posts %.mailbox.out
	$(report) --form mailbox --cert $*.tight.cert --plan $*.posts --run $*.mailbox.out $< $@

%.s19: %.asm
	$(FUZZ12) asm $< $@

# Proves crates side by side, each once those are proved that it stands on, and builds their libraries and the program. The
# launcher lc3lab reads this in the repository's root, by `make -f build.mk lanes=N most=N CRATE..`: how many crates are
# proved at one time, how many are in the longest chain, and which there are.

work := .built/work

.ONESHELL:
.SHELLFLAGS := -ec
.PHONY: $(MAKECMDGOALS)

# a row of crates.txt is a rule; the other file has how many crates are in the longest chain from each to the program
include crates.txt .built/chains

# the libraries that the toolchain brings
.DEFAULT: ;

$(MAKECMDGOALS):
	@exec >.built/logs/$@ 2>&1 </dev/null
	touch $(work)/proving/$@
	trap '[ $$? -eq 0 ] || echo $@ >$(work)/failed' EXIT
	# a second job where a lane is free, and one for each lane where all crates that are left wait for this one
	left=$$(($(words $(MAKECMDGOALS)) - $$(wc -l <$(work)/done)))
	busy=$$(ls $(work)/proving | wc -l)
	jobs=$$((left == $(behind) ? $(lanes) : busy < $(lanes) ? 2 : 1))
	# one for which fewer wait gives way to the others
	nice -n $$((2 * ($(most) - $(behind)))) setpriv --pdeathsig TERM ./prove --build $@ --jobs $$jobs
	rm $(work)/proving/$@
	echo $@ >>$(work)/done

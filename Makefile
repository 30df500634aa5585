# Workerwax. README.md says what the two commands do.
#
#     make run     the main job: proves the library for C and runs the program of README.md over it, on a shunt plan; also proves
#                  and runs the worked cases and the program `settings`
#     make lib     proves the library for C and writes target/staticlib/libworkerwax.a
#     make test    the whole test, which is the gate: tools/test has its steps
#     make bench   the library against plain C, in instructions, time and bytes: docs/BENCHMARK.md. It is no part of the gate
#
# Started from another folder, `make -C` prints a line of its own behind the last one. --no-print-directory leaves it out.

.PHONY: run lib test bench setup

run: setup
	@tools/build-host example
	@printf '\nworked cases\n'
	@tools/run-crate cases </dev/null
	@tools/run-crate linecases </dev/null
	@tools/run-crate infocases </dev/null
	@tools/run-crate reportcases </dev/null
	@printf '\nsettings program, role 0, s 5, n 14, shaping 1, mark 1 and then mark 2\n'
	@printf '\000\005\016\001\001' | tools/run-crate settings
	@printf '\000\005\016\001\002' | tools/run-crate settings
	@printf '\nhost/example.c sends host/shunt-plan.txt by the INFO0 and INFO1c that were received, six times\n'
	@target/host/example <host/shunt-plan.txt

lib: setup
	@tools/staticlib
	@printf 'target/staticlib/libworkerwax.a\n'

test: setup
	@tools/test

bench: setup
	@tools/bench

# Installs what is missing. It does nothing where all is there.
setup:
	@tools/setup

.PHONY: run explain play program test check fmt size apart guide wrong-bodies hostile fuzz damages
.PHONY: lib c rust install check-one

PREFIX ?= /usr/local

# Carries one delegation and shows its messages, each with the end that sent it, and the outcome.
# At once where the gate or `make program` left the program, else in about a minute of two
# processors, which proves nothing.
run:
	@tools/run delegate examples/delegate.scenario

# The same exchange with its messages in words.
explain:
	@tools/run delegate examples/delegate.scenario | tools/run explain

# Hands out the deliveries of a schedule, and shows what each end sent and its state.
play:
	@tools/run play examples/play.scenario

# Proves the program with every library below it, and leaves it for `make run` and tools/run: 45 to
# 95 processor minutes the first time.
program:
	@cd crates/sspi_run && rt run -- gen 1 > /dev/null

# Every proof, every mutant of must-fail/, every test and program.
test:
	@rt ci

# Proves every crate over what earlier checks kept.
check:
	@rt all check

# Proves one crate, or one function of it:
# make check-one CRATE=sspi_credssp FN=server::CredSspServer::process
check-one:
	@cd crates/$(CRATE) && rt check $(if $(FN),--only $(FN))

# Lays out every crate.
fmt:
	@for crate in crates/*/; do (cd "$$crate" && rt fmt) || exit 1; done

# The lines of each crate by kind, and what the contract of `delegate` rests on.
size:
	@tools/size

# The spec files that mix what public contracts reach with what none of them reaches. Those that are
# left say why.
apart:
	@tools/apart

# The code in README.md, docs/GUIDE.md and docs/LIBRARY.md that is not, line for line, in the file
# that it names.
guide:
	@tools/guide

# The built program with each of its allocations, reads and writes failing in turn; then one end at
# a time, over channels that are cut or changed, and both over two pipes.
hostile:
	@tools/hostile/faults
	@tools/hostile/ends

# The built program on 100000 scenarios that a seed draws. They take about a quarter of an hour.
fuzz:
	@tools/hostile/fuzz 100000 1

# What the word `explain` tells of each message of the tests, and of requests with one octet
# changed, beside what their readers answer.
damages:
	@tools/damages

# Real logons on loopback, by NTLM and Kerberos of the system, with FreeRDP and with each other. It
# says what apt-get must install first.
.PHONY: logon
logon:
	@tools/logon/logon

# The mutants that the gate does not try, each of which must be refused. They take some hours.
wrong-bodies:
	@tools/wrong-bodies

# The library for C and Rust, build/libnewaksu.a, and build/include. It needs cc and binutils, and
# rt where a source is newer than the proved library.
lib:
	@tools/archive

# The tests of C over that library. They need what `lib` needs, and take sanitizers and valgrind
# where these are there.
c: lib
	@ffi/tests/run

# The crates newaksu-sys and newaksu over that library, and their tests. They need cargo and what
# `lib` needs, and nothing from a registry.
rust: lib
	@ffi/rust/run

# Puts the library, its headers and newaksu.pc below DESTDIR and PREFIX (/usr/local). It needs what
# `lib` needs.
install: lib
	@install -d "$(DESTDIR)$(PREFIX)/lib/pkgconfig" "$(DESTDIR)$(PREFIX)/include"
	@install -m 644 build/libnewaksu.a "$(DESTDIR)$(PREFIX)/lib"
	@install -m 644 build/include/newaksu.h build/include/newaksu_host.h "$(DESTDIR)$(PREFIX)/include"
	@sed 's|@prefix@|$(PREFIX)|' ffi/newaksu.pc.in > "$(DESTDIR)$(PREFIX)/lib/pkgconfig/newaksu.pc"

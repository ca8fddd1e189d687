# Shortcuts. CI runs .ci/run, whose proofs take 40 minutes to an hour and a half on four processors.
PREFIX ?= $(HOME)/.local

unverified:        # builds all programs without proofs
	tools/unverified
proved:            # proves, tests and builds every crate
	rt ci
test:              # tries the programs that `make proved` built
	tools/desk_fault --check && checks/c_library && checks/examples
install:           # make install PREFIX=DIR: proved programs where they are built, else unverified ones
	tools/install --quick "$(PREFIX)"

.PHONY: unverified proved test install

# The usual words for what the scripts do: make, make sample, make test, make install PREFIX=/usr/local
PREFIX = /usr/local

all:
	bash scripts/build

sample:
	bash scripts/sample

test:
	bash tests/run

install:
	bash scripts/install "$(PREFIX)"

.PHONY: all sample test install

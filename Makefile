PREFIX ?= /usr/local

help:              ## list the targets
	@sed -n 's/^\([a-z]*\):.*## \(.*\)/make \1\t\2/p' Makefile

test:              ## test the programs from outside (two minutes)
	bin/test

prove:             ## prove and test everything from source (needs rt; hours from nothing)
	bash .ci/run

build:             ## prove and build the four programs from source (needs rt; about an hour)
	bin/build

install:           ## install the programs and manual pages into PREFIX
	bin/install $(PREFIX)

bench:             ## measure against C++ (needs a C++ compiler; most scripts need rt, some a folder or an instance)
	for run in bench/*/run; do $$run; done

package:           ## make the release archive
	bin/package

.PHONY: help test prove build install bench package

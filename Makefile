# What the README names: `make run` and `make test`.

.PHONY: deb install pages run scene scenes statement test uninstall

# Builds the proved program, prints one line of address test mode, and answers it. What `rt ci` has
# proved of the same texts on this machine is taken over.
run:
	-@python3 tools/libs.py > /dev/null 2>&1
	@cd crates/sendmail && cat stdin && rt run < stdin -- -bt -C$(CURDIR)/crates/sendmail/data/row1.cf

# The gate.
test:
	bash .ci/run

# Writes the statement of the top call, with the definitions that it cites, from the specs, and
# tells each name of docs/THEOREM.md that is gone from it.
statement:
	python3 tools/statement.py > docs/STATEMENT.md
	python3 tools/theorem.py

# Writes what scripts write of other pages: DEFINITIONS, the crates of ARCHITECTURE, maps of crates.
pages:
	python3 tools/definitions.py > docs/DEFINITIONS.md
	python3 tools/architecture.py
	python3 tools/maps.py

# Plays all scenes with the proved program.
scenes: crates/scenes/out/scenes
	cd crates/scenes/data && cat ../stdin large.txt | ../out/scenes

# Plays the scene NAME, and shows what was wanted and what came.
scene: crates/scenes/out/scenes
	cd crates/scenes/data && cat ../stdin large.txt | ../out/scenes -v '$(NAME)'

crates/scenes/out/scenes: $(wildcard crates/*/src/*.rt)
	cd crates/scenes && rt run < /dev/null > /dev/null

# Installs the program that `make run` left, with its pages and units, below DESTDIR and PREFIX.
install uninstall:
	@DESTDIR='$(DESTDIR)' PREFIX='$(PREFIX)' HOST='$(HOST)' PROGRAM='$(PROGRAM)' SETUP='$(SETUP)' \
	    sh packaging/install.sh $@

# The Debian package, beside this folder.
deb:
	ln -sfn packaging/debian debian
	dpkg-buildpackage -us -uc -b

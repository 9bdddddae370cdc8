# make install PREFIX=FOLDER puts nllc into FOLDER/bin, with its man page and completions; tools/install.sh does the work.
PREFIX = /usr/local

install uninstall:
	@tools/install.sh $@ "$(DESTDIR)$(PREFIX)"

.PHONY: install uninstall

# Builds and installs rio.
#
#     make                                builds the two programs where they are missing or older than a source, as ./rio does
#     make install PREFIX=/usr/local      puts them below PREFIX, with the manual page, the clients and the completions
#     make uninstall PREFIX=/usr/local    takes away what was put there
#
# DESTDIR=FOLDER puts all below FOLDER, from where it can be moved to PREFIX. What is installed finds itself wherever it is.
PREFIX = /usr/local
DESTDIR =

.PHONY: all install uninstall

# With no words the program prints its usage line and ends with status 2.
all:
	@./rio </dev/null >/dev/null; test $$? -eq 2

install:
	@install/put "$(DESTDIR)$(PREFIX)"

uninstall:
	@install/remove "$(DESTDIR)$(PREFIX)"

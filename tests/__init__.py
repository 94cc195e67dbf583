"""Tests that run the programs as a user does. They use Python's standard library alone, and `gcc`, `ar` and what else a
test says that it needs.

`programs.py` has the programs that they run: those that `tools/build-front` and `make ldi` built, or others that
LD_LDI, LDI_WATCH, LDI_ADAPT, LDI_GDB and LDI name.

`tools/test-client --list` prints what each module is for. A new test goes into the module of its subject, or into
one of its own, and takes the base class that fits:

- `programs.OutsideTest`: a folder, any of the programs, no server but by `serve`; `ProjectTest` has two
  objects and a script in it. `beside.BesideTest` compares small links with GNU ld's.
- `linking.LinkTest`: `ld.ldi` and `ldi-gdb` on sources compiled with sections for functions and data, without a server
  and without another linker; `linking.BesideGnu` compares with GNU ld's image, `serving.ServerTest` has the server.
- `message_links.MessageTest`: what `ldi-watch --once` says of a link.
- `watching`: the loop of `ldi-watch`; `adapting` and `adapt_*`: `ldi-adapt`.
"""

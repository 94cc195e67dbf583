"""Random scripts of GNU ld over random small objects, linked by GNU ld and by `ld.ldi` (`tools/fuzz-adapt`)."""

"""Names that collide in a hash table of fixed seed, for the benches of scripts and of objects.

The hash is that of Rust's std with keys 0, and collide.c searches for the names, which takes about ten seconds for
50,000. A table that hashes by a seed of its own, or doesn't hash, takes no longer over them than over other names.
"""
import functools
import os
import subprocess
import tempfile

SOURCE = os.path.join(os.path.dirname(os.path.abspath(__file__)), "collide.c")
BYTES, TEXT = "bytes", "text"
BITS = 16  # a table of up to 57,344 names has 2^16 places or fewer
MOST = 50_000


@functools.cache
def names(form):
    """MOST names of six letters whose hashes have the same low bits, as slices of bytes or as strings of Rust."""
    with tempfile.TemporaryDirectory() as folder:
        program = os.path.join(folder, "collide")
        subprocess.run(["cc", "-O3", "-march=native", "-o", program, SOURCE], check=True)
        found = subprocess.run([program, form, str(BITS), str(MOST)], stdout=subprocess.PIPE, text=True, check=True)
        return found.stdout.split()

"""The programs: each module has the `main` of one. Their runs are short, and few of the objects
that they make, while modules are imported as well, are in a cycle of references: so nobody looks
for such cycles, nor at the end."""
import atexit
import gc

gc.disable()
atexit.register(gc.freeze)

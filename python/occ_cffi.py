"""Builds `occ._compiled`, the short ways of `occ/native.py` by cffi in its API mode, where cffi is there."""
import os

from cffi import FFI

HERE = os.path.dirname(os.path.abspath(__file__))
LIBRARY = os.environ.get("OCC_LIBRARY") or os.path.join(HERE, "..", "c", "out", "libocc.so")

ffi = FFI()
ffi.cdef("""
    typedef ... occ_worker;
    int occ_begin(occ_worker *worker);
    int occ_commit(occ_worker *worker, uint64_t *number);
    int occ_get_int(occ_worker *worker, size_t table, uint64_t key, int64_t *cell);
    int occ_put_int(occ_worker *worker, size_t table, uint64_t key, int64_t cell);
    int occ_get(occ_worker *worker, size_t table, const char *key, size_t key_size, char *row, size_t room, size_t *size);
    int occ_put(occ_worker *worker, size_t table, const char *key, size_t key_size, const char *row, size_t row_size);
""")
ffi.set_source("occ._compiled", '#include "occ.h"', include_dirs=[os.path.join(HERE, "..", "c")], library_dirs=[os.path.dirname(os.path.abspath(LIBRARY))], libraries=["occ"])

if __name__ == "__main__":
    ffi.compile(tmpdir=HERE, verbose=True)

class S { long[] a; boolean repOk() { return a[0] == 4294967296L; } }

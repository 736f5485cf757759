class S { int[] a; boolean repOk() { for (int i = 0; i < a.length - 1; i++) if (a[i] != 0) return false; return a[a.length - 1] < 2; } }

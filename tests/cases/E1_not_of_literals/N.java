class N { N next = null; int v = -(5); long w = -5L; boolean b = true; boolean repOk() { return next == null; } }

class A { void m() { try { } } }

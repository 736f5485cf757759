class A { void m() { try { } finally { } } }

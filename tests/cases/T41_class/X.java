class A { void m() { throw this; } }

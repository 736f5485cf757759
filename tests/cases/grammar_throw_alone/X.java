class A { void m() { throw; } }

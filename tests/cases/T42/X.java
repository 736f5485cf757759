class A { void m() { try { } catch (A a) { } } }

class A { void m() { try { } catch (B b) { } } }

class A { void m() { try { } catch (Exception) { } } }

class A { void m(int e) { try { } catch (Exception e) { } } }

class A { void m() { try { } catch (Exception e) { } throw e; } }

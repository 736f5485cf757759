class A { void m() { try { } catch (Exception e) { } finally { } } }

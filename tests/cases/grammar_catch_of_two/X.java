class A { void m() { try { } catch (Exception | Throwable e) { } } }

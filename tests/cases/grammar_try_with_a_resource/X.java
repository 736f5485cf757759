class A { void m() { try (A a = null) { } catch (Exception e) { } } }

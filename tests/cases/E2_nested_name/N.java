class N { static class KoratBuild { } N next; boolean repOk() { return next != null && next.next == null; } }

class N { static class A { long w; N up; } A[] as; int[] ns; boolean repOk() { return as.length == 1 && as[0] != null && ns.length == 0; } }

import java.util.*;
class N {
  int[][] a;
  int v;
  int w;
  boolean repOk() {
    HashSet<int[]> seen = new HashSet<int[]>();
    for (int i = 0; i < a.length; i++)
      if (!seen.add(a[i])) return false;
    return true;
  }
}

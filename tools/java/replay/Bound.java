package replay;

import java.util.List;

/** How many arrays of a type there are, and their lengths. */
record Bound(int count, List<Integer> lengths) {}

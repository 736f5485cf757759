package rings;

/** An element of a deque. */
class Token {
}

// é counts as one
class Broken {
  /* é */ int w = true;
}

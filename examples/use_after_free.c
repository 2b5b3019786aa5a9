// A cell is read after it was freed.
#include <stdlib.h>

struct node {
  int data;
  struct node *next;
};

int bad(struct node *x) {
  free(x);
  return x->data;
}
